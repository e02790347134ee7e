//! The answer list: eight loads at each depth, ten numbers for the bottom, one for each strake; and the order of the loads, which C-18 of
//! document 02 changes.

/// The loads at a depth by their names, in the order of document 01, and the number of each, counted from 0.
pub const LOADS: [&str; 8] = ["z", "p_hf", "p_wf", "p_vf", "P_w", "p_he", "p_we", "p_p"];
pub const Z: usize = 0;
pub const P_HF: usize = 1;
pub const P_WF: usize = 2;
pub const P_VF: usize = 3;
pub const P_W: usize = 4;
pub const P_HE: usize = 5;
pub const P_WE: usize = 6;
pub const P_P: usize = 7;

/// The loads at one depth.
pub type Row<N> = [N; LOADS.len()];

/// Numbers for the bottom.
pub const BOTTOM: usize = 10;

/// Where a list of so many depths has a load of one of them, load and depth given by their numbers, counted from 0.
pub type Order = fn(depths: usize, load: usize, depth: usize) -> usize;

/// All z first, then all p_hf, and so on.
pub const COLUMNS: Order = |depths, load, depth| depths * load + depth;

/// The order before C-18, and that of a page's lines: the loads at the first depth, then those at the second, and so on.
pub const ROWS: Order = |_, load, depth| LOADS.len() * depth + load;

/// The numbers of an answer list, by depth and load.
#[derive(Clone, Debug, PartialEq, Eq)]
pub struct Answers<N> {
    pub rows: Vec<Row<N>>,
    pub bottom: Vec<N>,
    pub strakes: Vec<N>,
}

impl<N: Copy + Default> Answers<N> {
    /// The numbers of a list of so many depths, its loads in that order.
    pub fn read(order: Order, depths: usize, list: &[N]) -> Answers<N> {
        let (loads, below) = list.split_at(LOADS.len() * depths);
        let (bottom, strakes) = below.split_at(BOTTOM);
        let row = |depth| std::array::from_fn(|load| loads[order(depths, load, depth)]);
        Answers {
            rows: (0..depths).map(row).collect(),
            bottom: bottom.to_vec(),
            strakes: strakes.to_vec(),
        }
    }

    /// The list, its loads in that order.
    pub fn list(&self, order: Order) -> Vec<N> {
        let depths = self.rows.len();
        let mut loads = vec![N::default(); LOADS.len() * depths];
        for (depth, row) in self.rows.iter().enumerate() {
            for (load, number) in row.iter().enumerate() {
                loads[order(depths, load, depth)] = *number;
            }
        }
        [&loads[..], &self.bottom, &self.strakes].concat()
    }
}
