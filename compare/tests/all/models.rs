//! The models of ../models: what is stored is what is printed.

use crate::common::{self, rows, table};
use compare::services::print;

const L: (&str, &str) = (
    include_str!("../../../models/L.txt"),
    include_str!("../../../models/L.out"),
);
const COUNTER: (&str, &str) = (
    include_str!("../../../models/counter.txt"),
    include_str!("../../../models/counter.out"),
);
const FREE_LIST: (&str, &str) = (
    include_str!("../../../models/free_list.txt"),
    include_str!("../../../models/free_list.out"),
);
const PLACING_HEAD: (&str, &str) = (
    include_str!("../../../models/placing_head.txt"),
    include_str!("../../../models/placing_head.out"),
);
const REFUSED: (&str, &str) = (
    include_str!("../../../models/refused.txt"),
    include_str!("../../../models/refused.out"),
);

#[test]
fn stored_output_is_printed() {
    for (text, printed) in [L, COUNTER, FREE_LIST, PLACING_HEAD, REFUSED] {
        assert_eq!(print(&table(text)), printed.as_bytes());
    }
    assert_eq!(rows(L.0), rows(common::L));
}
