//! Pages: the region that each belongs to, its cells in use, and the cell that an object takes (02, W3 and W5).

use crate::rules::Region;

pub const CELLS_ON_PAGE: usize = 16;

/// A page is free or belongs to a region, and uses its first cells.
#[derive(Clone, Copy, PartialEq)]
pub struct Page {
    pub owner: Option<Region>,
    pub used: usize,
}

const FREE: Page = Page { owner: None, used: 0 };

#[derive(Clone, PartialEq)]
pub struct Pages(Vec<Page>);

impl Pages {
    pub fn new(count: usize) -> Pages {
        Pages(vec![FREE; count])
    }

    pub fn list(&self) -> &[Page] {
        &self.0
    }

    /// The cell that a new object of the region takes: the first unused one of the region's partly filled page, else of the
    /// highest-numbered free page. Question 13 was asked before, so there is one.
    pub fn take(&mut self, region: Region) -> usize {
        let room = |page: &Page| page.owner == Some(region) && page.used < CELLS_ON_PAGE;
        let place = match self.0.iter().position(room) {
            Some(place) => place,
            None => (0..self.0.len()).rev().find(|&place| self.0[place] == FREE).expect("no page is free"),
        };
        let first = self.0[place].used;
        self.0[place] = Page { owner: Some(region), used: first + 1 };
        CELLS_ON_PAGE * place + first
    }

    /// The region's pages become free.
    pub fn give_back(&mut self, region: Region) {
        for page in &mut self.0 {
            if page.owner == Some(region) {
                *page = FREE;
            }
        }
    }
    /// The region keeps so many objects: they fill the lowest-numbered of its pages, and the others become free. Gives their cells in order.
    pub fn pack(&mut self, region: Region, objects: usize) -> Vec<usize> {
        let mut cells = Vec::new();
        for (place, page) in self.0.iter_mut().enumerate().filter(|(_, page)| page.owner == Some(region)) {
            let used = CELLS_ON_PAGE.min(objects - cells.len());
            cells.extend((0..used).map(|cell| CELLS_ON_PAGE * place + cell));
            *page = if used == 0 { FREE } else { Page { owner: Some(region), used } };
        }
        cells
    }
}
