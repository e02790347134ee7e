//! Pairs of sheets with one section and product: filling pressures that section, product and load depth alone decide, and never falling,
//! whether the bins are slender or squat and whatever their headrooms; the same with their factor blank; patches
//! round a shell and depths for pressures, by their factors; and sheets with a headroom beside one without.

use reference::compare::Comparison;
use reference::inputs::Random;
use reference::linked::Linked;
use reference::runs;

#[test]
fn pressures_of_one_section_and_product() {
    let mut comparison = Comparison::with(&Linked);
    runs::pairs(&mut comparison, &mut Random::new(1_991), 2_000).unwrap();
    let tally = comparison.tally;
    let (pairs, unlike, headrooms) = (tally.pairs, tally.unlike_pairs, tally.unlike_headrooms);
    let (blank, [equal, greater]) = (tally.blank_pairs, tally.beside);
    let (patches, depths) = (tally.patch_pairs, tally.depth_pairs);
    println!("{pairs} pairs compared, {unlike} of them with unlike discharge factors, {headrooms} with unlike headrooms, {blank} with a blank factor");
    println!("made blank, beside 135: {equal} equal, {greater} with greater numbers");
    println!("{} silos with a headroom compared with a level one", tally.levels);
    println!("{patches} patches round a shell no smaller than the pair's other one");
    println!("{depths} times depths for pressures no greater than the pair's other ones");
    assert!(pairs == 2_000 && equal + greater == 2 * pairs);
    let some = [unlike, headrooms, blank, tally.levels, patches, depths, equal, greater];
    assert!(some.iter().all(|some| (1..2 * pairs).contains(some)));
}
