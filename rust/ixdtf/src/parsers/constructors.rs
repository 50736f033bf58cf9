// Made by tools/to_rust.py of crates/ixdtf/src/parsers/constructors.rt. Do not edit.

//! The functions that create an [`IxdtfParser`], and the method that changes its profile.

use crate::parsers::{IxdtfParser, Profile};
use crate::encoding::{EncodingType, Utf8, Utf16};
use crate::cursor::Cursor;

impl<'a> IxdtfParser<'a, Utf8> {
    /// Creates a parser of the UTF-8 bytes of a text.
    ///
    /// # Examples
    ///
    /// ```rust
    /// use ixdtf::parsers::IxdtfParser;
    ///
    /// assert!(IxdtfParser::from_str("2024-03-02").parse().is_ok());
    /// ```
    #[inline]
    #[must_use]
    pub fn from_str(source: &'a str) -> Self {
        Self::new(source.as_bytes())
    }

    /// Creates a parser of bytes. They need not be UTF-8.
    ///
    /// # Examples
    ///
    /// ```rust
    /// use ixdtf::parsers::IxdtfParser;
    ///
    /// assert!(IxdtfParser::from_utf8(b"2024-03-02").parse().is_ok());
    /// assert!(IxdtfParser::from_utf8(b"2024-03-02\xff").parse().is_err());
    /// ```
    #[inline]
    #[must_use]
    pub fn from_utf8(source: &'a [u8]) -> Self {
        Self::new(source)
    }
}

impl<'a> IxdtfParser<'a, Utf16> {
    /// Creates a parser of 16-bit code units. They need not be UTF-16.
    ///
    /// # Examples
    ///
    /// ```rust
    /// use ixdtf::ParseError;
    /// use ixdtf::parsers::IxdtfParser;
    ///
    /// let text: Vec<u16> = "2024-03-02[u-ca=hebrew]".encode_utf16().collect();
    /// let record = IxdtfParser::from_utf16(&text).parse()?;
    /// assert_eq!(String::from_utf16(record.calendar.unwrap()).unwrap(), "hebrew");
    ///
    /// let text: Vec<u16> = "2024\u{2212}03-02".encode_utf16().collect();
    /// assert_eq!(IxdtfParser::from_utf16(&text).parse(), Err(ParseError::NonAsciiCodePoint));
    /// # Ok::<(), ParseError>(())
    /// ```
    #[inline]
    #[must_use]
    pub fn from_utf16(source: &'a [u16]) -> Self {
        IxdtfParser::new(source)
    }
}

impl<'a, T: EncodingType> IxdtfParser<'a, T> {
    /// Creates a parser of code units of any encoding.
    ///
    /// # Examples
    ///
    /// ```rust
    /// use ixdtf::encoding::EncodingType;
    /// use ixdtf::parsers::IxdtfParser;
    ///
    /// fn is_date_time<T: EncodingType>(text: &[T::CodeUnit]) -> bool {
    ///     IxdtfParser::<T>::new(text).parse().is_ok()
    /// }
    ///
    /// assert!(is_date_time::<ixdtf::encoding::Utf8>(b"2024-03-02"));
    /// ```
    #[inline]
    #[must_use]
    pub fn new(source: &'a [T::CodeUnit]) -> Self {
        IxdtfParser {
            cursor: Cursor::new(source),
            profile: Profile::Crate,
        }
    }

    /// Returns the parser with another profile. The remaining input is unchanged.
    ///
    /// The profile decides which texts [`parse_month_day`](Self::parse_month_day) accepts. A time without `T` or `t`
    /// must not begin with a text that `parse_month_day` accepts. So the profile also decides which times
    /// [`parse_time`](Self::parse_time) refuses.
    ///
    /// # Examples
    ///
    /// ```rust
    /// use ixdtf::ParseError;
    /// use ixdtf::parsers::{IxdtfParser, Profile};
    ///
    /// assert!(IxdtfParser::from_str("11-00").parse_month_day().is_ok());
    /// let mut strict = IxdtfParser::from_str("11-00").with_profile(Profile::Strict);
    /// assert_eq!(strict.parse_month_day(), Err(ParseError::InvalidMonthDay));
    /// ```
    #[inline]
    #[must_use]
    pub fn with_profile(self, profile: Profile) -> Self {
        IxdtfParser {
            cursor: self.cursor,
            profile,
        }
    }
}
