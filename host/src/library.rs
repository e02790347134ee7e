//! The proved library's seven functions behind safe Rust: slices in, results out.

/// Why a call was refused: the number that the library answers.
#[derive(Clone, Copy, Debug, PartialEq, Eq)]
pub struct Refusal(pub u32);

/// What refusals 1, 2, .. mean.
const MEANINGS: [&str; 20] = [
    "the sheet is over 1024 bytes",
    "a record is cut short",
    "a record's kind is not the one due",
    "a record's length is not one that its kind allows (1 to 24 strakes, 1 to 200 depths)",
    "bytes are left over after the last record",
    "a diameter or side is outside 500 to 50000 mm",
    "the product is outside its limits: weight 1000 to 30000 N/m3, ratio Ks 0.20 to 1.00, friction mu 0.10 to 1.00, \
     factor C0 1.00 to 2.00, or 0 for 1.55 (7.4 at 40 degrees)",
    "an eccentricity is over a quarter of the diameter or shorter side",
    "the bottom is neither flat nor a hopper of over 20 degrees with a run of at least 1 mm and under half the diameter \
     or shorter side, and a height of at most 25000 mm",
    "a strake is outside 200 to 3000 mm",
    "a depth is below the wall's foot or not greater than the one before",
    "too slender: wall and hopper, less the headroom, are 10 or more times as high as the diameter or shorter side",
    "retired, and never answered: squat silos are calculated",
    "the list is not of the length due",
    "the catalogue has no such row or wall",
    "the catalogue buffer is not of 14 bytes",
    "the headroom is the wall's height or more",
    "the page buffer is shorter than the page; lend one of the length that the library says beforehand",
    "the section is a rectangle; the patch goes round the shell of a circle",
    "the sides are too unequal: the longer is over three times the shorter; such a sheet can be kept and measured, but not \
     calculated",
];

impl Refusal {
    pub const SHEET_TOO_LONG: Refusal = Refusal(1);
    pub const CUT_SHORT: Refusal = Refusal(2);
    pub const WRONG_KIND: Refusal = Refusal(3);
    pub const WRONG_LENGTH: Refusal = Refusal(4);
    pub const BYTES_LEFT_OVER: Refusal = Refusal(5);
    pub const SECTION: Refusal = Refusal(6);
    pub const PRODUCT: Refusal = Refusal(7);
    pub const ECCENTRICITY: Refusal = Refusal(8);
    pub const BOTTOM: Refusal = Refusal(9);
    pub const STRAKE: Refusal = Refusal(10);
    pub const DEPTH: Refusal = Refusal(11);
    pub const TOO_SLENDER: Refusal = Refusal(12);
    pub const LIST_LENGTH: Refusal = Refusal(14);
    pub const NO_SUCH_ROW: Refusal = Refusal(15);
    pub const RECORD_LENGTH: Refusal = Refusal(16);
    pub const HEADROOM: Refusal = Refusal(17);
    pub const PAGE_LENGTH: Refusal = Refusal(18);
    pub const RECTANGLE: Refusal = Refusal(19);
    pub const UNEQUAL_SIDES: Refusal = Refusal(20);

    pub fn meaning(self) -> &'static str {
        let place = (self.0 as usize).wrapping_sub(1);
        MEANINGS.get(place).copied().unwrap_or("a refusal that this program does not know")
    }

    /// The sheet is not six records or seven, so it has no description.
    pub fn is_of_form(self) -> bool {
        self.0 <= Refusal::BYTES_LEFT_OVER.0
    }
}

/// A length comes back with this added.
const LENGTH_MARK: u64 = 1 << 32;

fn length(answer: u64) -> Result<usize, Refusal> {
    match answer.checked_sub(LENGTH_MARK) {
        Some(length) => Ok(length as usize),
        None => Err(Refusal(answer as u32)),
    }
}

/// The length of the answer list that is due for a sheet, in numbers. It is told for sides that are too unequal for loads as well.
pub fn answers_length(sheet: &[u8]) -> Result<usize, Refusal> {
    // SAFETY: the pointer and the length are those of one slice, which the call only reads.
    length(unsafe { silo_sys::silo_answers_length(sheet.as_ptr(), sheet.len()) })
}

/// The length of a sheet's load page, in bytes; told as that of the answer list.
pub fn page_length(sheet: &[u8]) -> Result<usize, Refusal> {
    // SAFETY: the pointer and the length are those of one slice, which the call only reads.
    length(unsafe { silo_sys::silo_page_length(sheet.as_ptr(), sheet.len()) })
}

/// A list or page of the length told, empty where the length is refused: the call that fills it refuses the sheet itself, not always
/// with the same number.
fn lent<T: Clone + Default>(length: Result<usize, Refusal>) -> Vec<T> {
    vec![T::default(); length.unwrap_or(0)]
}

fn done(answer: u32) -> Result<(), Refusal> {
    match answer {
        0 => Ok(()),
        number => Err(Refusal(number)),
    }
}

/// Fills the answer list; on refusal it is as it was.
pub fn fill_loads(sheet: &[u8], answers: &mut [u32]) -> Result<(), Refusal> {
    // SAFETY: each pointer comes with its own slice's length; `answers` is borrowed mutably, so it overlaps nothing.
    done(unsafe {
        silo_sys::silo_loads(sheet.as_ptr(), sheet.len(), answers.as_mut_ptr(), answers.len())
    })
}

/// What the load call says of a sheet, without its loads: no answer list is empty, so 14 is the refusal of an accepted sheet.
pub fn verdict(sheet: &[u8]) -> Result<(), Refusal> {
    match fill_loads(sheet, &mut []) {
        Err(Refusal::LIST_LENGTH) => Ok(()),
        refused => refused,
    }
}

/// Writes the load page at the buffer's start; the bytes past it keep what they held. On refusal the buffer is as it was.
pub fn fill_page(sheet: &[u8], page: &mut [u8]) -> Result<(), Refusal> {
    // SAFETY: each pointer comes with its own slice's length; `page` is borrowed mutably, so it overlaps nothing.
    done(unsafe { silo_sys::silo_page(sheet.as_ptr(), sheet.len(), page.as_mut_ptr(), page.len()) })
}

/// The load page of a sheet: ASCII, in lines.
pub fn page(sheet: &[u8]) -> Result<Vec<u8>, Refusal> {
    let mut page = lent(page_length(sheet));
    fill_page(sheet, &mut page)?;
    Ok(page)
}

/// Fills the reply list of the patch round a circular shell, `depth` mm below the brim; on refusal it is as it was.
pub fn fill_shell_patch(sheet: &[u8], depth: u32, reply: &mut [i32]) -> Result<(), Refusal> {
    let (lent, length) = (reply.as_mut_ptr(), reply.len());
    // SAFETY: each pointer comes with its own slice's length; `reply` is borrowed mutably, so it overlaps nothing.
    done(unsafe { silo_sys::silo_shell_patch(sheet.as_ptr(), sheet.len(), depth, lent, length) })
}

/// Writes the product record of a row of table 7.1; wall 0 is steel and wall 1 concrete. On refusal the buffer is as it was.
pub fn fill_record(row: u32, wall: u32, record: &mut [u8]) -> Result<(), Refusal> {
    // SAFETY: the pointer and the length are those of one slice.
    done(unsafe { silo_sys::silo_catalogue(row, wall, record.as_mut_ptr(), record.len()) })
}

/// Of two strake lists the one that governs, with the greater last number, the first when equal; an empty part of the first if the
/// lengths differ or are 0.
pub fn governing<'a>(first: &'a [u32], second: &'a [u32]) -> &'a [u32] {
    let (one, other) = (first.as_ptr(), second.as_ptr());
    // SAFETY: each pointer goes with its own slice's length, and the call only reads.
    match unsafe { silo_sys::silo_governing(one, first.len(), other, second.len()) } {
        1 => first,
        2 => second,
        _ => &first[..0],
    }
}

/// Numbers of a depth, and columns of an answer list: z (mm), p_hf, p_wf, p_vf (Pa), P_w (N/m), p_he, p_we, p_p (Pa).
pub const ROW: usize = 8;
/// The columns of an answer list, and the places in a depth's row.
pub const Z: usize = 0;
pub const P_HF: usize = 1;
pub const P_WF: usize = 2;
pub const P_VF: usize = 3;
pub const P_W: usize = 4;
pub const P_HE: usize = 5;
pub const P_WE: usize = 6;
pub const P_P: usize = 7;
/// Numbers of the bottom: floor and nine zeros, or P_n and P_t at k = 0..4 (Pa).
pub const BOTTOM: usize = 10;

/// Where a list of so many depths has the load of one of them; all are counted from 0.
pub fn place(depths: usize, load: usize, depth: usize) -> usize {
    load * depths + depth
}

/// The loads of an accepted sheet.
pub struct Loads {
    answers: Vec<u32>,
    strakes: usize,
}

impl Loads {
    /// The loads of a sheet with that many strakes.
    pub fn of(sheet: &[u8], strakes: usize) -> Result<Loads, Refusal> {
        let mut answers = lent(answers_length(sheet));
        fill_loads(sheet, &mut answers)?;
        Ok(Loads { answers, strakes })
    }

    /// The same with another number at a place of the list.
    #[cfg(test)]
    pub fn with(mut self, place: usize, number: impl Fn(u32) -> u32) -> Loads {
        self.answers[place] = number(self.answers[place]);
        self
    }

    fn parts(&self) -> (&[u32], &[u32], &[u32]) {
        let (above, strakes) = self.answers.split_at(self.answers.len() - self.strakes);
        let (columns, bottom) = above.split_at(above.len() - BOTTOM);
        (columns, bottom, strakes)
    }

    /// One load, such as `P_HE`, or `Z`, at all depths, in their order.
    pub fn column(&self, load: usize) -> &[u32] {
        let columns = self.parts().0;
        let depths = columns.len() / ROW;
        &columns[place(depths, load, 0)..][..depths]
    }

    /// All numbers of a depth, for each depth.
    pub fn rows(&self) -> impl Iterator<Item = [u32; ROW]> + '_ {
        let columns: [&[u32]; ROW] = std::array::from_fn(|load| self.column(load));
        (0..columns[Z].len()).map(move |depth| columns.map(|column| column[depth]))
    }

    pub fn floor(&self) -> u32 {
        self.parts().1[0]
    }

    /// k, P_n and P_t, k quarters of the hopper's slope up from the outlet.
    pub fn hopper(&self) -> impl Iterator<Item = (usize, u32, u32)> + '_ {
        let (normal, tangential) = self.parts().1.split_at(BOTTOM / 2);
        normal.iter().zip(tangential).enumerate().map(|(k, (n, t))| (k, *n, *t))
    }

    pub fn strakes(&self) -> &[u32] {
        self.parts().2
    }
}

/// Whole degrees round a shell.
pub const DEGREES: usize = 360;
/// Numbers of a reply list: the pressure at each degree (Pa), then the force (N).
pub const SHELL_REPLY: usize = DEGREES + 1;

/// The patch round the shell of an accepted circle, at one depth.
pub struct ShellPatch {
    reply: [i32; SHELL_REPLY],
}

impl ShellPatch {
    /// The patch of a sheet, `depth` mm below the brim.
    pub fn of(sheet: &[u8], depth: u32) -> Result<ShellPatch, Refusal> {
        let mut reply = [0; SHELL_REPLY];
        fill_shell_patch(sheet, depth, &mut reply)?;
        Ok(ShellPatch { reply })
    }

    /// At each degree, outward positive, Pa.
    pub fn pressures(&self) -> &[i32] {
        &self.reply[..DEGREES]
    }

    /// p_p, the greatest, at 0 degrees, Pa.
    pub fn pressure(&self) -> u32 {
        self.reply[0].unsigned_abs()
    }

    /// F_p, N
    pub fn force(&self) -> u32 {
        self.reply[DEGREES].unsigned_abs()
    }
}
