//! The properties of all days, tried on the proved library.

use compare::Proved;

#[test]
fn every_property_holds() {
    print!("{}", plain::properties::hold(&Proved));
}
