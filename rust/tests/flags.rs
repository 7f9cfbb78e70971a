//! Flags as sets, with names.
use yokberd::TypeFormatterFlags as Flags;

#[test]
fn operators() {
    let (return_and_name, name) = (Flags::NO_FUNCTION_RETURN | Flags::NAME_ONLY, Flags::NAME_ONLY);
    assert_eq!((!return_and_name).bits(), 0x2e);
    assert_eq!(!Flags::all(), Flags::empty());
    assert_eq!(!Flags::from_bits_retain(0x41), !Flags::NO_FUNCTION_RETURN, "within the six flags");
    assert_eq!((return_and_name ^ (name | Flags::NO_ARGUMENTS)).bits(), 0x21);
    let mut flags = return_and_name;
    flags ^= name;
    assert_eq!(flags, Flags::NO_FUNCTION_RETURN);
    flags ^= name;
    assert_eq!(flags, return_and_name);
    assert_eq!(return_and_name.difference(name), Flags::NO_FUNCTION_RETURN);
    assert_eq!(return_and_name - name, return_and_name.difference(name));
    const SHORT: Flags = Flags::all().difference(Flags::NO_ARGUMENTS);
    assert_eq!(SHORT.bits(), 0x1f);
    assert_eq!(Flags::default().bits(), 0x17, "the original's default");
}

#[test]
fn names() {
    let shown = |bits| format!("{:?}", Flags::from_bits_retain(bits));
    assert_eq!(shown(0), "TypeFormatterFlags(empty)");
    assert_eq!(shown(0x11), "TypeFormatterFlags(NO_FUNCTION_RETURN | NAME_ONLY)");
    assert_eq!(shown(0xc0), "TypeFormatterFlags(0xc0)");
    assert_eq!(shown(0x8000_002e), "TypeFormatterFlags(NO_MEMBER_FUNCTION_STATIC | SPACE_AFTER_COMMA | SPACE_BEFORE_POINTER | NO_ARGUMENTS | 0x80000000)");
    let all = Flags::NAMES.iter().fold(Flags::empty(), |flags, (_, flag)| flags ^ *flag);
    assert_eq!(all, Flags::all(), "each flag has one name");
}
