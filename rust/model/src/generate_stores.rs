//! Stores that are nearly quiet: to words that no present walk uses, to those beside them that
//! walks do use, and to words that come into use later; then uses of what they left.
use crate::generate::{
    access, domain, in_domain, op, operation, pointer, two_of_a_mib, two_of_a_page, NG_SECTION,
    ROOTS, SECTION,
};
use crate::machine::{Kind, Operation, CLIENTS};
use crate::random::Random;

/// The tables that MiB behind the first are made to use: mostly such as no first MiB uses, and now
/// and then the words of the roots.
const TABLES: [u32; 8] = [0x800, 0x800, 0xC00, 0x1000, 0x1800, 0x1800, 0x400, 0];

/// The second MiB.
const SECOND: u32 = 0x10_0000;

/// A word of level one or of a table: where it stands, a page that it maps where walks use it so,
/// and two contents of it.
struct Word {
    at: u32,
    page: u32,
    contents: [u32; 2],
}

/// A list in the making, with the root and the context that it has come to.
struct Stores<'a> {
    random: &'a mut Random,
    contexts: u32,
    memory: u32,
    root: u32,
    context: u32,
    /// Where the frames at 0 are mapped, so that stores to tables go there: by the first MiB, whose
    /// pages 0 and 1 map themselves, or by the second, made a section.
    base: u32,
    list: Vec<Operation>,
}

impl Stores<'_> {
    fn push(&mut self, kind: Kind, a: u32, b: u32, c: u32) {
        self.list.push(op(kind, a, b, c));
    }

    fn any_context(&mut self) -> u32 {
        self.random.below(u64::from(self.contexts)) as u32
    }

    fn enter(&mut self, context: u32) {
        self.context = context;
        self.push(Kind::Asid, context, 0, 0);
    }

    /// Sets a root under context 0; a context may follow, and a flush of everything.
    fn set_root(&mut self, root: u32) {
        self.enter(0);
        (self.root, self.base) = (root, 0);
        self.push(Kind::Root, root, 0, 0);
        if self.random.one_in(2) {
            let context = self.any_context();
            self.enter(context);
        }
        if self.random.one_in(2) {
            self.push(Kind::All, 0, 0, 0);
        }
    }

    /// Makes the stores that follow go by the second MiB.
    fn by_a_section(&mut self) {
        let ng = self.random.word() & NG_SECTION;
        self.write(self.root + 4, SECTION | ng);
        self.push(Kind::All, 0, 0, 0);
        self.base = SECOND;
    }

    /// A MiB by which no store to a table goes.
    fn mib(&mut self) -> u32 {
        let first = 1 + self.base / SECOND;
        first + self.random.below(u64::from(4 - first)) as u32
    }

    /// A table: one of a few, or the last of memory, which stores can reach by a section alone.
    fn table(&mut self) -> u32 {
        if self.base != 0 && self.random.one_in(4) {
            return self.memory.saturating_sub(0x400) & !0x3FF;
        }
        *self.random.pick(&TABLES)
    }

    /// Level-one word n of a root: that of a MiB if n is below 4, and else one above the window.
    fn level_one(&mut self, root: u32, n: u32) -> Word {
        let page = n.min(3) << 8 | *self.random.pick(&[0, 1, 2, 3, 4, 255]);
        Word {
            at: root + 4 * n,
            page,
            contents: two_of_a_mib(self.random, page),
        }
    }

    /// Word n of a table that a MiB uses or is to use.
    fn level_two(&mut self, mib: u32, table: u32, n: u32) -> Word {
        Word {
            at: table + 4 * n,
            page: mib << 8 | n,
            contents: two_of_a_page(self.random),
        }
    }

    fn write(&mut self, at: u32, word: u32) {
        self.push(Kind::Write, self.base + at, 4, word);
    }

    /// Points a MiB to a table, in some domain.
    fn point(&mut self, mib: u32, table: u32) {
        let word = in_domain(table | 1, domain(self.random));
        self.write(self.root + 4 * mib, word);
    }

    /// What may come between two stores to a page's word: a flush of the page or of a context, the
    /// current one or another, another context, or an access.
    fn between(&mut self, page: u32) {
        let (here, any) = (self.context, self.any_context());
        match self.random.below(14) {
            0 => self.push(Kind::Addr, page << 12, 0, 0),
            1 => self.push(Kind::AddrCtx, page << 12, here, 0),
            2 => self.push(Kind::AddrCtx, page << 12, any, 0),
            3 => self.push(Kind::Ctx, here, 0, 0),
            4 => self.push(Kind::Ctx, any, 0, 0),
            5 => self.enter(any),
            6 => self.access(page),
            _ => (),
        }
    }

    /// Two or three stores to a word: its contents in turn, some of them the ones that it has, or
    /// first what maps nothing. Those behind the first are of one size, and go to the lowest or the
    /// highest byte in which the contents differ.
    fn stores(&mut self, word: &Word) {
        let [x, y] = word.contents;
        let contents = match self.random.below(8) {
            0..=2 => vec![x, y, x],
            3..=4 => vec![0, x, y],
            5..=6 => vec![x, y],
            _ => vec![x, x],
        };
        self.write(word.at, contents[0]);
        if self.random.one_in(2) {
            self.push(Kind::Addr, word.page << 12, 0, 0);
        }
        let (size, high) = (*self.random.pick(&[1, 2, 4]), self.random.one_in(2));
        for pair in contents.windows(2) {
            self.between(word.page);
            let byte = match pair[0] ^ pair[1] {
                0 => self.random.below(4) as u32,
                differ if high && pair[0] != 0 => differ.ilog2() / 8,
                differ => differ.trailing_zeros() / 8,
            };
            let offset = byte / size * size;
            let value = pair[1] >> (8 * offset) & u32::MAX >> (32 - 8 * size);
            self.push(Kind::Write, self.base + word.at + offset, size, value);
        }
    }

    /// An access in the middle of a page, where it meets the tables of few lists.
    fn access(&mut self, page: u32) {
        let at = page << 12 | 0x800 | (self.random.word() & 0x3FC);
        self.list.push(access(self.random, at));
    }

    fn uses(&mut self, page: u32) {
        self.access(page);
        if self.random.one_in(2) {
            self.between(page);
            self.access(page);
        }
    }

    /// The level-one word of the first MiB, in two domains, which may be one.
    fn first_pointer(&mut self) -> Word {
        let word = pointer(self.root);
        Word {
            at: self.root,
            page: *self.random.pick(&[0, 1, 2, 255]),
            contents: [0, 1].map(|_| in_domain(word, domain(self.random))),
        }
    }

    /// A level-one word of the window, the one behind it, or another above it.
    fn beside_the_window(&mut self) {
        let n = match self.random.below(5) {
            0..=2 => self.mib(),
            3 => 4,
            _ => 4 + self.random.below(28) as u32,
        };
        let word = if self.random.one_in(6) {
            self.first_pointer()
        } else {
            self.level_one(self.root, n)
        };
        self.stores(&word);
        self.uses(word.page);
    }

    /// A level-one word of another root, which is set then, and may be left again at once. The MiB
    /// may have no mapping by the root before it.
    fn another_root(&mut self) {
        let (before, root, n) = (self.root, *self.random.pick(&ROOTS), self.mib());
        let word = self.level_one(root, n);
        if self.random.one_in(2) {
            self.write(before + 4 * n, 0);
            self.push(Kind::Addr, word.page << 12, 0, 0);
        }
        self.stores(&word);
        self.set_root(root);
        match self.random.below(3) {
            0 => self.uses(word.page),
            1 => self.stores(&word),
            _ => {
                self.push(Kind::Root, before, 0, 0);
                self.root = before;
            }
        }
        self.uses(word.page);
    }

    /// A word of a table that may not be in use: the table comes into use, and may go out of it.
    fn another_table(&mut self) {
        let (mib, table) = (self.mib(), self.table());
        let n = match self.random.below(4) {
            0 => self.random.below(256) as u32,
            _ => *self.random.pick(&[0, 1, 254, 255]),
        };
        let word = self.level_two(mib, table, n);
        self.stores(&word);
        self.point(mib, table);
        self.uses(word.page);
        if self.random.one_in(2) {
            self.write(self.root + 4 * mib, 0);
        }
        self.stores(&word);
        if self.random.one_in(2) {
            self.point(mib, table);
        }
        self.uses(word.page);
    }

    /// The first or the last word of a table in use, that right before it or that right behind it.
    fn beside_a_table(&mut self) {
        let (mib, table) = if self.random.one_in(3) {
            (0, pointer(self.root) & !0x3FF)
        } else {
            let (mib, table) = (self.mib(), self.table());
            self.point(mib, table);
            (mib, table)
        };
        let first = mib << 8;
        // The first word of the first MiB's table maps what stores go by.
        let (at, page) = match self.random.below(if mib == 0 { 3 } else { 4 }) {
            0 => (table + 0x3FC, first + 255),
            1 => (table + 0x400, first + 256),
            2 => (table.saturating_sub(4), first.saturating_sub(1)),
            _ => (table, first),
        };
        let word = Word {
            at,
            page: page.min(1023),
            contents: two_of_a_page(self.random),
        };
        self.stores(&word);
        self.uses(word.page);
    }
}

/// Stores of one kind and uses of what they left. Mostly a root is set first, and everything is
/// flushed, as other operations leave pages stale through which the stores go.
pub fn nearly_quiet(random: &mut Random, contexts: u32, memory: u32) -> Vec<Operation> {
    let mut made = Stores {
        random,
        contexts,
        memory,
        root: 0,
        context: 0,
        base: 0,
        list: Vec::new(),
    };
    if made.random.one_in(2) {
        made.push(Kind::Mode, 0, 0, 0);
        made.push(Kind::Domain, CLIENTS, 0, 0);
    }
    if !made.random.one_in(4) {
        let root = *made.random.pick(&ROOTS);
        made.set_root(root);
    }
    if made.random.one_in(4) {
        made.by_a_section();
    }
    match made.random.below(4) {
        0 => made.beside_the_window(),
        1 => made.another_root(),
        2 => made.another_table(),
        _ => made.beside_a_table(),
    }
    made.list
}

/// At least this many operations, mostly of such stores and their uses.
pub fn stores(random: &mut Random, contexts: u32, memory: u32, least: u64) -> Vec<Operation> {
    let mut list = Vec::new();
    while (list.len() as u64) < least {
        list.extend(nearly_quiet(random, contexts, memory));
        if random.one_in(2) {
            list.push(operation(random, contexts, memory));
        }
    }
    list
}
