//! Piles of memories by name: `flat:SIZE:LIST` or `banked:1024:LIST`, then `+scan` or `+lineE` for
//! each layer, bottom first.

use crate::memory::{Banked, Flat, FullScan, Line, Memory, BANKED};

pub const MOST_LAYERS: usize = 4;
const MOST_LIST: usize = 1_000_000;

#[derive(Clone, Copy, Debug, PartialEq, Eq)]
pub enum Layer {
    Scan,
    Line(u32),
}

#[derive(Clone, Debug, PartialEq, Eq)]
pub struct Make {
    pub banked: bool,
    pub size: usize,
    pub limit: usize,
    pub layers: Vec<Layer>,
}

fn length(text: &str) -> Option<usize> {
    text.parse().ok().filter(|&length| length <= MOST_LIST)
}

fn layer(text: &str) -> Option<Layer> {
    match text.strip_prefix("line") {
        Some(exponent) => exponent.parse().ok().map(Layer::Line),
        None => (text == "scan").then_some(Layer::Scan),
    }
}

impl Make {
    pub fn named(name: &str) -> Option<Make> {
        let mut parts = name.split('+');
        let mut leaf = parts.next()?.split(':');
        let banked = match leaf.next()? {
            "flat" => false,
            "banked" => true,
            _ => return None,
        };
        let (size, limit) = (length(leaf.next()?)?, length(leaf.next()?)?);
        let layers: Vec<Layer> = parts.map(layer).collect::<Option<_>>()?;
        let good =
            leaf.next().is_none() && (!banked || size == BANKED) && layers.len() <= MOST_LAYERS;
        good.then_some(Make {
            banked,
            size,
            limit,
            layers,
        })
    }

    /// The pile with these cells, and zeros behind them. A scan only puts rows of marks behind
    /// each other and a line divides each mark, so they may change places: the scans are built
    /// at the bottom, each knowing what is below it, and all lines as one on top.
    pub fn build(&self, mut cells: Vec<u32>) -> Box<dyn Memory> {
        cells.resize(self.size, 0);
        if self.banked {
            self.layered(Banked::with_cells(cells, self.limit))
        } else {
            self.layered(Flat::new(cells, self.limit))
        }
    }

    fn layered<M: Memory + 'static>(&self, leaf: M) -> Box<dyn Memory> {
        match self
            .layers
            .iter()
            .filter(|&&layer| layer == Layer::Scan)
            .count()
        {
            0 => self.lined(leaf),
            1 => self.lined(FullScan::new(leaf)),
            2 => self.lined(FullScan::new(FullScan::new(leaf))),
            3 => self.lined(FullScan::new(FullScan::new(FullScan::new(leaf)))),
            _ => self.lined(FullScan::new(FullScan::new(FullScan::new(FullScan::new(
                leaf,
            ))))),
        }
    }

    fn lined<M: Memory + 'static>(&self, below: M) -> Box<dyn Memory> {
        let mut exponents = self.layers.iter().filter_map(|layer| match layer {
            Layer::Scan => None,
            Layer::Line(exponent) => Some(*exponent),
        });
        match exponents.next() {
            None => Box::new(below),
            Some(first) => Box::new(Line::several(
                below,
                std::iter::once(first).chain(exponents),
            )),
        }
    }
}
