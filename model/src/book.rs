//! The book of the crash theorem: fed the arguments, which calls were refused, and the cuts. It knows
//! nothing of log, state, frames or home after its start.

use crate::block::PAGE_SIZE;

#[derive(Clone, Debug)]
struct BookUpdate {
    page: u64,
    offset: u64,
    bytes: Vec<u8>,
}

#[derive(Clone, Debug)]
pub struct Book {
    pages: Vec<Vec<u8>>,
    /// m, the count of committed transactions.
    committed: u64,
    /// The blocks stored of the queue's oldest list.
    count: u64,
    list: Vec<BookUpdate>,
    queue: Vec<Vec<BookUpdate>>,
}

impl Book {
    /// The book at the end of Format, over home as it is found then.
    pub fn new(home: &[u8]) -> Book {
        Book {
            pages: home.chunks(PAGE_SIZE).map(|page| page.to_vec()).collect(),
            committed: 0,
            count: 0,
            list: Vec::new(),
            queue: Vec::new(),
        }
    }

    pub fn committed(&self) -> u64 {
        self.committed
    }

    pub fn pages(&self) -> &[Vec<u8>] {
        &self.pages
    }

    pub fn page(&self, page: u64) -> &[u8] {
        &self.pages[page as usize]
    }

    pub fn begin(&mut self) {
        self.list = Vec::new();
    }

    pub fn describe(&mut self, page: u64, offset: u64, bytes: &[u8]) {
        self.list.push(BookUpdate {
            page,
            offset,
            bytes: bytes.to_vec(),
        });
    }

    /// Gives the ticket that End must give.
    pub fn end(&mut self) -> u64 {
        self.queue.push(std::mem::take(&mut self.list));
        self.committed + self.queue.len() as u64
    }

    /// Gives the ticket that Log step must report, if it commits.
    pub fn log_step(&mut self) -> Option<u64> {
        self.count += 1;
        if self.count <= self.queue[0].len() as u64 {
            return None;
        }
        for update in self.queue.remove(0) {
            let page = &mut self.pages[update.page as usize];
            for (j, byte) in update.bytes.iter().enumerate() {
                page[update.offset as usize + j] = *byte;
            }
        }
        self.committed += 1;
        self.count = 0;
        Some(self.committed)
    }

    /// An opening, also a refused one, or a cut.
    pub fn open_or_cut(&mut self) {
        self.list = Vec::new();
        self.queue = Vec::new();
        self.count = 0;
    }
}
