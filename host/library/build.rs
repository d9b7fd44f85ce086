//! Links the static library that the environment variable IDENTIFY_LIB names, where it is set, and
//! those that go with it: liblive.a, libtwo_axis_exports.a and libpair.a.

fn main() {
    if let Some(library) = archive::named() {
        archive::link(&library);
        for name in ["live", "two_axis_exports", "pair"] {
            archive::link(&archive::of_crate(name, &library));
        }
    }
}
