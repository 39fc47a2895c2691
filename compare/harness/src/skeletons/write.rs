//! One writing of a skeleton.

use crate::derived::input::{Call, MOST};
use crate::difference::{hex, Input};
use crate::lent::Lent;
use crate::lent_tables::LentDerived;
use crate::smaller::{shorter_bytes, smaller_bones, smaller_room};
use cases::rows::{self, Place};
use cases::Rng;
use link::{Halves, Skeletons, WrittenBones, DONE};
use oracle::{names_fit, write, Bone, NameBytes, Written};

/// A table of bones, how many of them are asked for, the halves in which their names lie, and what is lent to write them.
#[derive(Clone)]
pub struct WriteInput {
    pub bones: Vec<u32>,
    pub n: usize,
    /// System and graphics.
    pub names: [Vec<u8>; 2],
    pub free: [u32; 4],
    /// How many words each working table has more than `n` bones need: buckets, entries, inverse, local, parents, children,
    /// pending.
    pub room: [isize; 7],
    /// The buffer's length.
    pub out: usize,
    /// The seed of what the tables and the buffer hold at entry.
    pub dirt: u64,
}

/// The published section of some bones, or a refusal's number.
pub type Published = Result<Vec<u8>, u32>;

/// The words of each working table that `n` bones need.
pub fn sizes(n: usize) -> [usize; 7] {
    let sizes: Vec<usize> = [Call::Tags, Call::Matrices, Call::Indices].iter().flat_map(|call| call.sizes(n)).collect();
    sizes.try_into().expect("seven tables")
}

impl WriteInput {
    /// With working tables and a buffer exactly as long as they must be; the published section, too.
    pub fn exact(bones: Vec<u32>, n: usize, names: [Vec<u8>; 2], free: [u32; 4], dirt: u64) -> (Self, Published) {
        let mut input = WriteInput { bones, n, names, free, room: [0; 7], out: 0, dirt };
        let section = input.section();
        input.out = section.as_ref().map_or(0, Vec::len);
        (input, section)
    }

    /// The words of each lent table. A count of more than 65,536 is refused whatever they are.
    pub fn lengths(&self) -> [usize; 7] {
        let sizes = sizes(if self.n <= MOST + 1 { self.n } else { 0 });
        std::array::from_fn(|table| sizes[table].saturating_add_signed(self.room[table]))
    }

    /// The published section of the bones asked for, whatever the buffer. Refusals in the order of docs/FORMAT.md: 2; 1 for the table of bones;
    /// 4; 1 for the working tables; 3.
    pub fn section(&self) -> Published {
        self.tested(|bones| match write(bones, self.free) {
            Written::Section(bytes) => Ok(bytes),
            Written::Refused(number) => Err(number as u32),
        })
    }

    /// The same, where the section of the bones, or 3, is known if it is looked at.
    pub fn section_known(&self, known: &Published) -> Published {
        self.tested(|_| known.clone())
    }

    fn tested(&self, published: impl FnOnce(&[Bone]) -> Published) -> Published {
        if self.n > MOST {
            return Err(2);
        }
        if self.bones.len() < rows::BONE * self.n {
            return Err(1);
        }
        let bones = self.named_bones().filter(|bones| names_fit(bones)).ok_or(4u32)?;
        if self.lengths().into_iter().zip(sizes(self.n)).any(|(length, size)| length < size) {
            return Err(1);
        }
        published(&bones)
    }

    /// The bones with their names; `None` where a name does not lie in the lent bytes.
    fn named_bones(&self) -> Option<Vec<Bone>> {
        let lent = NameBytes::new(&self.names[0], &self.names[1]);
        let named = |row: &[u32]| {
            let (Place { address, size }, bone) = (Place::of(row), rows::bone(row));
            let name = if address == 0 { None } else { Some(lent.at(address, size as usize)?.to_vec()) };
            Some(Bone { name, ..bone })
        };
        self.bones.chunks_exact(rows::BONE).take(self.n).map(named).collect()
    }

    /// The status and the number of bytes: 5 where the section is longer than the buffer.
    pub fn status(&self, section: &Published) -> (u32, usize) {
        match section {
            Err(number) => (*number, 0),
            Ok(bytes) if bytes.len() > self.out => (5, 0),
            Ok(bytes) => (DONE, bytes.len()),
        }
    }

    /// The section at the front of the buffer, which is else as it was; the working tables are zero.
    pub fn lent(&self, section: &Published) -> WriteAnswer {
        let (mut out, (status, count)) = (self.dirty(), self.status(section));
        if let Ok(bytes) = section {
            out[..count].copy_from_slice(&bytes[..count]);
        }
        let tables = self.lengths().into_iter().map(|length| vec![0; length]).collect();
        WriteAnswer { status, count, out, tables, intact: true }
    }

    /// What the buffer holds at entry.
    fn dirty(&self) -> Vec<u8> {
        Rng::new(self.dirt).bytes(self.out)
    }
}

impl Input for WriteInput {
    fn smaller(&self) -> impl Iterator<Item = Self> {
        let length = |i: &WriteInput| i.section().map_or(0, |bytes| bytes.len());
        let was = length(self);
        // a buffer as much longer or shorter than it must be as it was
        let resized = move |mut i: WriteInput| {
            i.out = (i.out + length(&i)).saturating_sub(was);
            i
        };
        let bones = smaller_bones(&self.bones, self.n).map(|(bones, n)| WriteInput { bones, n, ..self.clone() });
        let room = smaller_room(self.room, self.lengths().to_vec()).map(|room| WriteInput { room, ..self.clone() });
        let names = (0..2).flat_map(|half| shorter_bytes(&self.names[half]).map(move |bytes| (half, bytes)));
        let names = names.map(|(half, bytes)| {
            let mut input = self.clone();
            input.names[half] = bytes;
            input
        });
        let out = [was, 0].into_iter().filter(|&out| out < self.out).map(|out| WriteInput { out, ..self.clone() });
        bones.map(resized).chain(room).chain(names.map(resized)).chain(out)
    }

    fn text(&self) -> String {
        let words = |row: &[u32]| row.iter().map(|w| format!(" {w:x}")).collect::<String>();
        let bones: String = self.bones.chunks(rows::BONE).map(|row| format!("bone{}\n", words(row))).collect();
        let WriteInput { n, names: [system, graphics], free, room, out, dirt, .. } = self;
        let names = format!("system {}\ngraphics {}", hex(system), hex(graphics));
        format!("{bones}n {n}\n{names}\nfree {free:x?}\nroom {room:?}\nout {out} bytes\ndirt {dirt}\n")
    }
}

/// What came back, and every word and byte lent afterwards.
#[derive(Debug, PartialEq, Eq)]
pub struct WriteAnswer {
    pub status: u32,
    pub count: usize,
    pub out: Vec<u8>,
    /// 16-bit words widened.
    tables: Vec<Vec<u32>>,
    /// Bones, names, free words and guards are as they were.
    intact: bool,
}

/// Makes the call on dirty tables and a dirty buffer between guards.
pub fn ours(library: &dyn Skeletons, i: &WriteInput) -> WriteAnswer {
    let (mut rng, lengths, mut intact) = (Rng::new(i.dirt), i.lengths(), true);
    let (mut bones, mut free) = (Lent::of(&i.bones), Lent::of(&i.free));
    let [mut system, mut graphics] = i.names.each_ref().map(|half| Lent::of(half));
    let mut lent = LentDerived::dirty(&lengths, &mut rng);
    let (mut out, mut count) = (Lent::of(&i.dirty()), Lent::<usize>::dirty(1, &mut rng));
    let status = {
        let names = Halves { system: system.slice(), graphics: graphics.slice() };
        let [count] = count.array();
        let bones = WrittenBones { table: bones.slice(), n: i.n, names, free: free.array() };
        library.write(bones, lent.tables(), out.slice(), count)
    };
    bones.kept(&i.bones, &mut intact);
    free.kept(&i.free, &mut intact);
    system.kept(&i.names[0], &mut intact);
    graphics.kept(&i.names[1], &mut intact);
    let (tables, count) = (lent.back(&mut intact), count.back(&mut intact)[0]);
    WriteAnswer { status, count, out: out.back(&mut intact), tables, intact }
}

/// What the published writing comes to in what is lent.
pub fn rust(i: &WriteInput) -> WriteAnswer {
    i.lent(&i.section())
}
