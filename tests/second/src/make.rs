//! Images to try check, copy, sample and difference list on: random valid
//! files, damaged ones, named cases with their expected answers, and pairs.
//! All of it is repeatable.

pub mod cases;
pub mod content;
pub mod long;
pub mod mutate;
pub mod pairs;
pub mod rng;
pub mod sheet;
pub mod signals;
pub mod valid;
pub mod vary;

use rng::Rng;

/// One image of the random run.
pub struct Drawn {
    pub image: Vec<u8>,
    /// True when nothing was damaged, so that it has to be accepted.
    pub valid: bool,
    /// Beside a valid image the same blocks in another layout, beside a
    /// damaged one the image it was made from; the other one of a pair.
    pub kin: Option<Vec<u8>>,
}

/// The image number `index` of the run with this seed.
pub fn draw(seed: u64, index: u64) -> Drawn {
    let mut rng = Rng::new(seed ^ index.wrapping_mul(0x9E6C_63D0_876A_3F6B));
    let plan = valid::plan(&mut rng);
    let made = valid::lay_down(&mut rng, &plan);
    if rng.chance(30) {
        let kin = plan.has_one_reading().then(|| valid::lay_down(&mut rng, &plan).bytes);
        return Drawn { image: made.bytes, valid: true, kin };
    }
    let mut image = mutate::damage(&mut rng, &made);
    image.shrink_to_fit();
    Drawn { image, valid: false, kin: Some(made.bytes) }
}
