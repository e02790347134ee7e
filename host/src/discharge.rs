//! Slender and squat silos, and the factors by which discharge raises the filling pressures, exact.

use crate::description::Description;
use crate::fraction::Fraction;

/// By h/d_c (1.4.15), with the equations of its factors.
#[derive(Clone, Copy, Debug, PartialEq, Eq)]
pub enum Shape {
    /// h/d_c at least 1.5
    Slender,
    /// Squat, and higher than wide.
    Squat,
    /// Squat, and no higher than wide.
    Low,
}

impl Shape {
    fn of(height: u64, width: u64) -> Shape {
        if 2 * height >= 3 * width {
            Shape::Slender
        } else if height > width {
            Shape::Squat
        } else {
            Shape::Low
        }
    }

    /// ENV's kind of silo.
    pub fn word(self) -> &'static str {
        match self {
            Shape::Slender => "slender",
            Shape::Squat | Shape::Low => "squat",
        }
    }

    /// Those of C_h and C_w.
    pub fn equations(self) -> &'static str {
        match self {
            Shape::Slender => "5.23",
            Shape::Squat => "5.34, 5.35",
            Shape::Low => "5.33",
        }
    }
}

/// How discharge acts on a silo that the library accepts.
#[derive(Clone, Copy, Debug, PartialEq, Eq)]
pub struct Discharge {
    pub shape: Shape,
    /// h/d_c
    pub slenderness: Fraction,
    /// C_h, from p_hf to p_he
    pub horizontal: Fraction,
    /// C_w, from p_wf to p_we
    pub friction: Fraction,
}

impl Discharge {
    pub fn of(silo: &Description) -> Discharge {
        let (height, width) = (silo.height(), u64::from(silo.section.shorter_side()));
        let factor = u64::from(silo.product.factor_used());
        let shape = Shape::of(height, width);
        let [horizontal, friction] = match shape {
            Shape::Slender => [(factor, 100), (11, 10)],
            Shape::Squat => {
                let over = height - width;
                [
                    (100 * width + 2 * (factor - 100) * over, 100 * width),
                    (5 * width + over, 5 * width),
                ]
            }
            Shape::Low => [(1, 1), (1, 1)],
        }
        .map(|(top, bottom)| Fraction::new(top, bottom));
        Discharge { shape, slenderness: Fraction::new(height, width), horizontal, friction }
    }

    /// Each with ENV's name.
    pub fn fractions(&self) -> [(&'static str, Fraction); 3] {
        [("h/d_c", self.slenderness), ("C_h", self.horizontal), ("C_w", self.friction)]
    }

    /// "slender silo: h/d_c 3.2, discharge factors C_h 1.3 and C_w 1.1 (5.23)"
    pub fn shown(&self) -> String {
        format!(
            "{} silo: h/d_c {}, discharge factors C_h {} and C_w {} ({})",
            self.shape.word(),
            self.slenderness.shown(),
            self.horizontal.shown(),
            self.friction.shown(),
            self.shape.equations()
        )
    }
}
