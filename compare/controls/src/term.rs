//! Terms in the notation of the specs.

/// A refusal's number, or the value, `None` for root 0 and for what is not found.
pub type Answer = Result<Option<usize>, u8>;

/// Hexadecimal from 65,536 on, as the specs have it.
pub fn number(n: impl Into<u64>) -> String {
    let n = n.into();
    if n < 0x1_0000 {
        return n.to_string();
    }
    format!("0x{:X}_{:04X}", n >> 16, n & 0xFFFF)
}

/// As an argument: in parentheses where it has more than one word.
pub fn arg(term: &str) -> String {
    if term.contains(' ') {
        format!("({term})")
    } else {
        term.into()
    }
}

/// `a ∷ b ∷ []`; three or more equal items are a `replicate`.
pub fn list<T: AsRef<str>>(items: impl IntoIterator<Item = T>) -> String {
    let items: Vec<T> = items.into_iter().collect();
    match items.first() {
        Some(first) if items.len() > 2 && items.iter().all(|item| item.as_ref() == first.as_ref()) => {
            format!("replicate {} {}", items.len(), arg(first.as_ref()))
        }
        _ => items.iter().map(|item| format!("{} ∷ ", item.as_ref())).collect::<String>() + "[]",
    }
}

pub fn numbers<T: Copy + Into<u64>>(items: &[T]) -> String {
    list(items.iter().map(|&n| number(n)))
}

/// Indices and parents, as the specs name -1.
pub fn signed(items: &[i16]) -> String {
    list(items.iter().map(|&n| if n == -1 { "minus_one".into() } else { number(n as u16) }))
}

/// Numbers written out, however alike they are.
pub fn row<T: Copy + Into<u64>>(items: &[T]) -> String {
    items.iter().map(|&n| format!("{} ∷ ", number(n))).collect::<String>() + "[]"
}

/// A function and its arguments, each a number.
pub fn applied<T: Copy + Into<u64>>(function: &str, items: &[T]) -> String {
    items.iter().fold(function.into(), |term, &n| format!("{term} {}", number(n)))
}

pub fn truth(b: bool) -> String {
    b.to_string()
}

pub fn answer(a: Answer) -> String {
    match a {
        Err(n) => format!("refused {n}"),
        Ok(None) => "done None".into(),
        Ok(Some(n)) => format!("done (Some {n})"),
    }
}
