//! Tests of the `*_located` readers in the way in which callers use them. The texts with their errors, positions and reasons are in the tables of the folder `tests` of the
//! repository.
use ixdtf::parsers::IxdtfParser;
use ixdtf::{LocatedError, ParseError, ParserResult, Reason};

#[test]
fn a_refused_reply_stands_behind_its_pair() {
    let text = "2020-01-01[u-ca=a][!u-ca=b][!x=y][z=1]";
    let refused = |count: usize| {
        let mut asked = 0;
        IxdtfParser::from_str(text).parse_with_annotation_handler_located(|annotation| {
            asked += 1;
            (asked == count).then_some(annotation)
        })
    };
    assert!(refused(0).is_ok() && refused(2).is_ok() && refused(4).is_ok());
    assert_eq!(refused(3).err(), Some(LocatedError { error: ParseError::UnrecognizedCritical, at: 33, reason: Reason::UnrecognizedCritical }));
}

#[test]
fn a_place_is_told_and_pointed_at() {
    let text = "2024-03-02T08:4800";
    let error = IxdtfParser::from_str(text).parse_located().err().unwrap();
    assert_eq!(error.to_string(), "Invalid character while parsing time separator. at 16");
    assert_eq!(error.in_text(text).to_string(), "2024-03-02T08:4800\n                ^");
}

fn read_all(text: &str) -> Result<i32, Box<dyn std::error::Error>> {
    let date = IxdtfParser::from_str(text).parse_located()?.date;
    Ok(date.map_or(0, |date| date.year))
}

fn read_plainly(text: &str) -> ParserResult<i32> {
    let date = IxdtfParser::from_str(text).parse_located()?.date;
    Ok(date.map_or(0, |date| date.year))
}

#[test]
fn a_question_mark_turns_it_into_other_errors() {
    assert_eq!(read_all("2024-03-02").unwrap(), 2024);
    assert_eq!(read_all("2024-03").unwrap_err().to_string(), "Invalid character while parsing date separator. at 7");
    assert_eq!(read_plainly("2024-13-02"), Err(ParseError::InvalidMonthRange));
}
