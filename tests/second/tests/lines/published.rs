//! The published samples.

use super::Outcome;
use second::reading::{canonical, load};

/// The sample file of the Unix manual page srec(5).
pub const MANUAL_PAGE: &str = "S00600004844521B
S1130000285F245F2212226A000424290008237C2A
S11300100002000800082629001853812341001813
S113002041E900084E42234300182342000824A952
S107003000144ED492
S5030004F8
S9030000FC
";

/// What is written for no cells, no header and entry 0.
const NOTHING: &str = "S0030000FC\nS5030000FC\nS9030000FC\n";

/// The long example of "The Motorola S-Record Format" by Karl Stenerud, up to
/// its count record.
const ACADEMY: &str = "\
S01E00005468652047726561742041636164656D79206F66204C616761646F7C
S1210000496E20746865207363686F6F6C206F6620706F6C69746963616C2070726FD7
S121001E6A6563746F72732049207761732062757420696C6C20656E746572746169AA
S121003C6E65642C0D0A7468652070726F666573736F727320617070656172696E679A
S121005A20696E206D79206A7564676D656E742077686F6C6C79206F7574206F6620BD
S121007874686569720D0A73656E7365732C2077686963682069732061207363656EFD
S1210096652074686174206E65766572206661696C7320746F206D616B65206D6520D0
S12100B46D656C616E63686F6C792E0D0A546865736520756E68617070792070656F37
S12100D2706C6520776572652070726F706F73696E6720736368656D657320666F7288
S12100F02070657273756164696E670D0A6D6F6E617263687320746F2063686F6F73EB
S121010E65206661766F7572697465732075706F6E207468652073636F7265206F668E
S121012C20746865697220776973646F6D2C0D0A63617061636974792C20616E642092
S121014A7669727475653B206F66207465616368696E67206D696E6973746572732043
S1210168746F20636F6E73756C7420746865207075626C69630D0A676F6F643B206FE0
S12101866620726577617264696E67206D657269742C206772656174206162696C694D
S12101A4746965732C20656D696E656E742073657276696365733B206F660D0A696EA6
S12101C2737472756374696E67207072696E63657320746F206B6E6F77207468656978
S12101E072207472756520696E74657265737420627920706C6163696E672069742007
S12101FE6F6E0D0A7468652073616D6520666F756E646174696F6E207769746820741D
S121021C686174206F662074686569722070656F706C653B206F662063686F6F7369D8
S121023A6E6720666F720D0A656D706C6F796D656E747320706572736F6E7320717562
S1210258616C696669656420746F206578657263697365207468656D3B207769746856
S1210276206D616E79206F746865720D0A77696C6420696D706F737369626C652063AE
S121029468696D657261732C2074686174206E6576657220656E746572656420626534
S12102B2666F726520696E746F207468650D0A6865617274206F66206D616E20746FC4
S12102D020636F6E63656976652C20616E6420636F6E6669726D656420696E206D6561
S12102EE20746865206F6C640D0A6F62736572766174696F6E2C207468617420746872
S121030C657265206973206E6F7468696E6720736F206578747261766167616E742099
S121032A616E640D0A6972726174696F6E616C20776869636820736F6D6520706869CA
S12103486C6F736F70686572732068617665206E6F74206D61696E7461696E65642025
S1100366666F720D0A74727574682E0D0AAC
";

/// What it encodes, with CR and LF at the end of each line.
const PROSE: &str = "\
In the school of political projectors I was but ill entertained,
the professors appearing in my judgment wholly out of their
senses, which is a scene that never fails to make me melancholy.
These unhappy people were proposing schemes for persuading
monarchs to choose favourites upon the score of their wisdom,
capacity, and virtue; of teaching ministers to consult the public
good; of rewarding merit, great abilities, eminent services; of
instructing princes to know their true interest by placing it on
the same foundation with that of their people; of choosing for
employments persons qualified to exercise them; with many other
wild impossible chimeras, that never entered before into the
heart of man to conceive, and confirmed in me the old
observation, that there is nothing so extravagant and
irrational which some philosophers have not maintained for
truth.
";

/// Loads into 1,024 cells from 0 on.
#[track_caller]
fn load_text(text: &str) -> Outcome {
    super::load_at(load, text, 0, 1024)
}

/// The text must be refused with this number, record and place.
#[track_caller]
fn refused(text: &str, wanted: (u32, usize, usize)) {
    assert_eq!(load_text(text).refusal(), wanted);
}

/// The text must be accepted with this header, entry, number of data records
/// and number of cells, and written again as `wanted`.
#[track_caller]
fn accepted(text: &str, told: (&str, u32, usize, usize), wanted: &str) {
    let outcome = load_text(text);
    assert_eq!(outcome.refusal(), (0, 0, 0));
    let (header, entry, records, cells) = told;
    let header = header.as_bytes();
    assert_eq!(outcome.header(), header);
    assert_eq!(outcome.counts(), (records, cells, Some(entry)));
    let written = canonical(0, &outcome.memory, &outcome.marks, header, entry);
    assert_eq!(String::from_utf8(written).unwrap(), wanted);
}

/// Data records without data, and what stands behind them.
fn counted(times: usize, last: &str) -> String {
    "S1030000FC\n".repeat(times) + last
}

#[test]
fn manual_page() {
    let told = ("HDR", 0, 4, 52);
    accepted(MANUAL_PAGE, told, MANUAL_PAGE);
    // The line ends of other systems, and another order of the data.
    accepted(&MANUAL_PAGE.replace('\n', "\r\n"), told, MANUAL_PAGE);
    accepted(&MANUAL_PAGE.replace('\n', "\r"), told, MANUAL_PAGE);
    let mut lines: Vec<&str> = MANUAL_PAGE.lines().collect();
    lines[1..5].reverse();
    accepted(&lines.join("\n"), told, MANUAL_PAGE);
}

#[test]
fn format_page() {
    accepted(
        "S00600004844521B\nS9030000FC\n",
        ("HDR", 0, 0, 0),
        "S00600004844521B\nS5030000FC\nS9030000FC\n",
    );
    let count = "S503010DEE\nS9030000FC\n";
    accepted(&counted(269, count), ("", 0, 269, 0), NOTHING);
    refused(&counted(268, count), (10, 269, 2948));
    refused(&counted(270, count), (10, 271, 2970));
    accepted(
        "S804000AF001\n",
        ("", 0xAF0, 0, 0),
        "S0030000FC\nS5030000FC\nS9030AF002\n",
    );
    // As printed, with a digit too many.
    refused("S804000AF0001\n", (6, 1, 0));
    // S7 and S9 with the count of 04 that the page's text gives them.
    refused("S70400000000FB\n", (6, 1, 0));
    accepted("S70500000000FA\n", ("", 0, 0, 0), NOTHING);
    refused("S9040000FB\n", (6, 1, 0));
    // What it shows that is no S-record.
    refused("$$ MODNAME\nS00600004844521B\nS9030000FC\n", (4, 1, 0));
    refused(":01002000FFE0\n:00000001FF\n", (4, 1, 0));
}

#[test]
fn seven_to_zero() {
    let s1 = "S0030000FC\nS10B00000706050403020100D8\nS5030001FB\n";
    let s2 = "S0030000FC\nS20C0000000706050403020100D7\nS5030001FB\n";
    let s3 = "S0030000FC\nS30D000000000706050403020100D6\nS5030001FB\n";
    accepted(
        "S10B00000706050403020100D8\nS90320409C\n",
        ("", 0x2040, 1, 8),
        &format!("{s1}S90320409C\n"),
    );
    accepted(
        "S20C0000000706050403020100D7\nS8046000108B\n",
        ("", 0x60_0010, 1, 8),
        &format!("{s2}S8046000108B\n"),
    );
    accepted(
        "S30D000000000706050403020100D6\nS70550000002A8\n",
        ("", 0x5000_0002, 1, 8),
        &format!("{s3}S70550000002A8\n"),
    );
    // The terminators change places; the largest address decides the width.
    accepted(
        "S10B00000706050403020100D8\nS8046000108B\n",
        ("", 0x60_0010, 1, 8),
        &format!("{s2}S8046000108B\n"),
    );
    accepted(
        "S20C0000000706050403020100D7\nS70550000002A8\n",
        ("", 0x5000_0002, 1, 8),
        &format!("{s3}S70550000002A8\n"),
    );
    accepted(
        "S30D000000000706050403020100D6\nS90320409C\n",
        ("", 0x2040, 1, 8),
        &format!("{s1}S90320409C\n"),
    );
    // With entry 0 they are one text.
    let narrow = format!("{s1}S9030000FC\n");
    for text in [
        "S10B00000706050403020100D8\nS9030000FC\n",
        "S20C0000000706050403020100D7\nS804000000FB\n",
        "S30D000000000706050403020100D6\nS70500000000FA\n",
        "S10b00000706050403020100d8\nS9030000fc\n",
        "S20C0000000706050403020100D7\nS9030000FC\n",
        "S10B00000706050403020100D8\nS70500000000FA\n",
    ] {
        accepted(text, ("", 0, 1, 8), &narrow);
    }
}

#[test]
fn terminators() {
    for (text, entry) in [
        ("S70550000002A8", 0x5000_0002),
        ("S8046000108B", 0x60_0010),
        ("S90320409C", 0x2040),
    ] {
        let wanted = format!("S0030000FC\nS5030000FC\n{text}\n");
        accepted(text, ("", entry, 0, 0), &wanted);
    }
}

#[test]
fn counts_in_four_bytes() {
    refused("S50500000050AA\n", (6, 1, 0));
    let two_bytes = counted(80, "S5030050AC\nS9030000FC\n");
    accepted(&two_bytes, ("", 0, 80, 0), NOTHING);
    let printed = format!("{ACADEMY}S5050000001EDC\nS9030000FC\n");
    refused(&printed, (6, 32, 2161));
}

#[test]
fn academy() {
    let title = "The Great Academy of Lagado";
    let text = format!("{ACADEMY}S503001EDE\nS9030000FC\n");
    let outcome = load_text(&text);
    assert_eq!(outcome.header(), title.as_bytes());
    assert_eq!(outcome.counts(), (30, 883, Some(0)));
    let prose = PROSE.replace('\n', "\r\n");
    assert_eq!(prose.len(), 883);
    assert_eq!(&outcome.memory[..883], prose.as_bytes());
    assert!(outcome.memory[883..].iter().all(|&byte| byte == 0xEE));
    // 883 cells are 55 rows of 16 and 3 cells more.
    let (memory, marks) = (&outcome.memory, &outcome.marks);
    let written = canonical(0, memory, marks, title.as_bytes(), 0);
    let written = String::from_utf8(written).unwrap();
    let lines: Vec<&str> = written.lines().collect();
    assert_eq!(lines.len(), 59);
    assert_eq!(lines[0], &ACADEMY[..64]);
    assert_eq!(lines[1], "S1130000496E20746865207363686F6F6C206F6637");
    assert_eq!(lines[55], "S113036061696E656420666F720D0A7472757468D3");
    assert_eq!(lines[56], "S10603702E0D0A41");
    assert_eq!(lines[57..], ["S5030038C4", "S9030000FC"]);
}

/// The manual page srec_mos_tech(5) shows a tape and no S-record.
#[test]
fn tape_page() {
    refused(
        ";0C000048656C6C6F2C20576F726C640454\n;0000010001\n",
        (4, 1, 0),
    );
}
