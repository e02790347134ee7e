//! A description as text.

use super::depths;
use crate::catalogue;
use crate::description::{Description, Product, Section};
use crate::discharge::Discharge;
use crate::name::Name;
use crate::number::hundredths;
use crate::report::BLANK_ANGLE;

/// Lines that read as the same sheet; the first, of a silo that is calculated, says its kind.
pub fn write(description: &Description) -> String {
    let mut lines: Vec<(Name, String)> = Vec::new();
    let length = |number: u32| format!("{number} mm");
    match description.section {
        Section::Circle(d) => lines.push((Name::Diameter, length(d))),
        Section::Rectangle(a, b) => lines.push((Name::Sides, format!("{a} x {b} mm"))),
    }
    lines.extend(product_lines(&description.product));
    lines.push((Name::FillingEccentricity, length(description.filling_eccentricity)));
    lines.push((Name::OutletEccentricity, length(description.outlet_eccentricity)));
    if description.is_flat() {
        lines.push((Name::Floor, "flat".to_string()));
    } else {
        lines.push((Name::HopperHeight, length(description.hopper_height)));
        let outlet = format!(
            "  # {} degrees, outlet {} mm",
            description.degrees(),
            description.outlet_width()
        );
        lines.push((Name::HopperRun, length(description.hopper_run) + &outlet));
    }
    lines.push((Name::Strakes, runs(&description.strakes) + " mm"));
    lines.push((Name::Depths, depths::written(description)));
    if description.headroom > 0 {
        let counted = "  # depths are from the brim, loads from the grain's surface";
        lines.push((Name::Headroom, length(description.headroom) + counted));
    }
    let kind = description.is_accepted().then(|| Discharge::of(description).shown());
    let kind = kind.map(|kind| format!("# {kind}\n"));
    let lines = lines.into_iter().map(|(name, value)| format!("{} = {value}\n", name.word()));
    kind.into_iter().chain(lines).collect()
}

fn product_lines(product: &Product) -> [(Name, String); 4] {
    let named = catalogue::name_of(product).map(|name| format!("  # as table 7.1 {name}"));
    let ratio = |number: u16| hundredths(number.into());
    let blank = match product.factor {
        0 => format!(
            "  # blank: taken as {} ({BLANK_ANGLE}); a soft product, up to 30, needs 1.35",
            ratio(product.factor_used())
        ),
        _ => String::new(),
    };
    [
        (Name::Weight, format!("{} N/m3{}", product.weight, named.unwrap_or_default())),
        (Name::Ratio, ratio(product.ratio)),
        (Name::Friction, ratio(product.friction)),
        (Name::Factor, ratio(product.factor) + &blank),
    ]
}

/// Equal heights in a row as `COUNT x HEIGHT`.
pub fn runs(heights: &[u16]) -> String {
    let parts = heights.chunk_by(|a, b| a == b).map(|run| match run {
        [height] => height.to_string(),
        _ => format!("{} x {}", run.len(), run[0]),
    });
    parts.collect::<Vec<String>>().join(", ")
}
