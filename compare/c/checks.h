/* What the program asks of the library. Each takes back all that it lent. */
#ifndef CHECKS_H
#define CHECKS_H

/* of the sections in these files */
void whole_horse(const char *path);
void cut_horse(const char *path);
void damaged_horses(const char *path);
void odd_pointers(const char *path);
void float_modes(const char *path);
void empty_tables(const char *path);

void number_of_exports(void);
void bones_by_hand(void);
void fields(void);
void cursor(void);
void status_texts(void);
void bucket_counts(void);
void hashes(void);
void matrices(void);
void limits(void);
void joints(void);

#endif
