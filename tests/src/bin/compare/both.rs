//! Calls by the second implementation and, where it is on, by the library, which have to agree.

use nesfoal_tests::net::Net;
use nesfoal_tests::replay::{fire_list, Replayed};

/// Replays a file; the marking if the list fires.
pub fn replay(net: &Net, file: &[u8], list: &[u16]) -> Result<Option<Vec<u64>>, String> {
    let (answer, marking) = fire_list(net, list);
    #[cfg(feature = "replay")]
    {
        use nesfoal_tests::cases::*;
        let marking_lent = Lent::plain(vec![0; net.places()]);
        let case =
            ReplayCase { file: Lent::plain(file.to_vec()), list: Lent::plain(list.to_vec()), marking: marking_lent };
        let library = crate::library::replay(&case);
        if library != case.second() {
            return Err(format!("replays differ: library {}", library.show()));
        }
    }
    let _ = file;
    Ok(if answer == Replayed::Fired { Some(marking) } else { None })
}
