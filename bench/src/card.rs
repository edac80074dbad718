//! Pages that outlive power, and the two stores over them.

pub const PAGE: usize = 512;
pub const ROWS: usize = 33;
pub type Page = [u8; PAGE];

/// Where power failed.
#[derive(Clone, Copy, Debug, PartialEq, Eq)]
pub struct Cut {
    pub row: u8,
    pub page: u8,
}

pub struct Card {
    pages: Vec<Page>,
    left: u32,
    tear: u8,
    junk: Page,
    on: bool,
}

impl Card {
    fn new(pages: usize) -> Card {
        Card { pages: vec![[0; PAGE]; pages], left: 0, tear: 0, junk: [0; PAGE], on: false }
    }

    fn write(&mut self, row: usize, page: usize, bytes: &Page) -> Result<(), Cut> {
        if self.left > 0 {
            self.left -= 1;
            self.pages[page] = *bytes;
            return Ok(());
        }
        match self.tear {
            1 => self.pages[page] = *bytes,
            2 if page != 0 => self.pages[page] = self.junk,
            _ => {}
        }
        self.on = false;
        Err(Cut { row: row as u8, page: page as u8 })
    }
}

pub trait Store {
    fn is_on(&self) -> bool;
    fn row(&self, row: usize) -> &Page;
    fn commit(&mut self, row: usize, bytes: &Page) -> Result<(), Cut>;
    fn restart(&mut self, left: u32, tear: u8, junk: &Page) -> Result<(), Cut>;
}

pub struct Shadow(Card);

impl Shadow {
    pub fn new() -> Shadow {
        Shadow(Card::new(1 + 2 * ROWS))
    }
}

impl Default for Shadow {
    fn default() -> Self {
        Self::new()
    }
}

impl Store for Shadow {
    fn is_on(&self) -> bool {
        self.0.on
    }

    fn row(&self, row: usize) -> &Page {
        &self.0.pages[1 + 2 * row + usize::from(self.0.pages[0][row])]
    }

    fn commit(&mut self, row: usize, bytes: &Page) -> Result<(), Cut> {
        let mut flags = self.0.pages[0];
        flags[row] = 1 - flags[row];
        self.0.write(row, 1 + 2 * row + usize::from(flags[row]), bytes)?;
        self.0.write(row, 0, &flags)
    }

    fn restart(&mut self, left: u32, tear: u8, junk: &Page) -> Result<(), Cut> {
        self.0.left = left;
        self.0.tear = tear;
        self.0.junk = *junk;
        self.0.on = true;
        Ok(())
    }
}

pub struct Journal(Card);

impl Journal {
    pub fn new() -> Journal {
        Journal(Card::new(2 + ROWS))
    }

    fn finish(&mut self, row: usize) -> Result<(), Cut> {
        let new = self.0.pages[1];
        self.0.write(row, 2 + row, &new)?;
        self.0.write(row, 0, &[0; PAGE])
    }
}

impl Default for Journal {
    fn default() -> Self {
        Self::new()
    }
}

impl Store for Journal {
    fn is_on(&self) -> bool {
        self.0.on
    }

    fn row(&self, row: usize) -> &Page {
        let standing = usize::from(self.0.pages[0][0]);
        &self.0.pages[if standing == row + 1 { 1 } else { 2 + row }]
    }

    fn commit(&mut self, row: usize, bytes: &Page) -> Result<(), Cut> {
        let mut flag = [0; PAGE];
        flag[0] = row as u8 + 1;
        self.0.write(row, 1, bytes)?;
        self.0.write(row, 0, &flag)?;
        self.finish(row)
    }

    fn restart(&mut self, left: u32, tear: u8, junk: &Page) -> Result<(), Cut> {
        self.0.left = left;
        self.0.tear = tear;
        self.0.junk = *junk;
        self.0.on = true;
        match usize::from(self.0.pages[0][0]) {
            0 => Ok(()),
            standing => self.finish(standing - 1),
        }
    }
}
