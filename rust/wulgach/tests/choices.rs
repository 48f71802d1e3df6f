//! The choice of a seed is that of `wulgach_volume_choose` of the header: the first numbers of splitmix64 from 0 on, as its authors give them.

use wulgach::Volume;

#[test]
fn a_seed_gives_the_numbers_of_the_header() {
    let numbers = [
        1 + 0xe220_a839_7b1d_cdaf / 4,
        0,
        1 + 0x06c4_5d18_8009_454f / 4,
        0,
        1 + 0x1b39_896a_51a8_749b / 4,
    ];
    assert_eq!(Volume::choice(0, u64::MAX / 4, 5), numbers);
    assert_eq!(Volume::choice(0, 3, 5), [2, 0, 2, 0, 2]);
    assert_eq!(Volume::choice(0, 0, 2), [0, 0]);
}
