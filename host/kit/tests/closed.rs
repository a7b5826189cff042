//! Whether more can be added to a package: the product looks first whether a refusal is possible at all, and the packer says the rest. Here the packer is
//! always asked.

use barthovin::closed::closed;
use barthovin::ffi;
use barthovin::names::{OUTPUT_TOO_SHORT, WORK_FOR_A_WORD};
use kit::generate::{call, Random};
use kit::reference::{pack, Packed};

#[test]
fn it_is_what_the_packer_says() {
    let mut random = Random::new(70);
    let (mut packages, mut refused) = (0, [0; 35]);
    while packages < 20_000 {
        let c = call(&mut random);
        let Packed::Made(package) = pack(&c.bundle, c.work, c.output) else { continue };
        packages += 1;
        let mut work = vec![0; package.len() / 4 * WORK_FOR_A_WORD];
        let (number, _) = ffi::pack(&package, &mut work, &mut []);
        let wanted = Some(number).filter(|number| ![0, OUTPUT_TOO_SHORT].contains(number));
        assert_eq!(closed(&package), wanted, "{package:02X?}");
        refused[wanted.unwrap_or(0) as usize] += 1;
    }
    assert!([7, 15, 34].iter().all(|number| refused[*number] > 5) && refused[0] > 1_000, "{refused:?}");
}
