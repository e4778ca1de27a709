//! Each format gives back the cuts that were written, sixty-fourths of a millimetre and long ways among them.

mod read;

use cut::formats::{dxf, hpgl, svg};
use cut::{Cut, CutList};

#[test]
fn what_is_written_is_read_back() {
    let cut = |x, y, to_x, to_y| Cut {
        from: (x, y),
        to: (to_x, to_y),
    };
    let list = CutList {
        sheet: (262144.0, 0.09375),
        cuts: vec![
            cut(0.0, 0.0, 262144.0, 0.0),
            cut(0.015625, 0.046875, 1.5, 0.046875),
            cut(7.984375, 0.0, 7.984375, 0.09375),
        ],
    };
    assert_eq!(read::svg(&svg(&list)), list.cuts);
    assert_eq!(read::dxf(&dxf(&list)), list.cuts);
    assert_eq!(read::hpgl(&hpgl(&list)), list.cuts);
}
