//! The JSON of the C API, which has no whitespace between its parts, and the members of each object in one order.

use crate::calls::with_text;
use crate::error::Place;
use crate::explain::{Alternative, Comparator, Explanation, LeftOut, Meaning, PreReleases};
use crate::range::{RangeBound, VersionBoundKind, VersionRange, VersionRangeSet};
use crate::version::Version;

const SHAPE: &str = "the library's JSON has this shape";

/// The rest of a JSON text.
struct Json<'a>(&'a str);

impl Json<'_> {
    fn skips(&mut self, text: &str) -> bool {
        let rest = self.0.strip_prefix(text);
        self.0 = rest.unwrap_or(self.0);
        rest.is_some()
    }

    fn skip(&mut self, text: &str) {
        assert!(self.skips(text), "{SHAPE}");
    }

    fn list<T>(&mut self, mut item: impl FnMut(&mut Self) -> T) -> Vec<T> {
        self.skip("[");
        let mut items = Vec::new();
        while !self.skips("]") {
            self.skips(",");
            items.push(item(self));
        }
        items
    }

    fn number(&mut self) -> usize {
        let (digits, rest) = self.0.split_at(self.0.find(|c: char| !c.is_ascii_digit()).expect(SHAPE));
        self.0 = rest;
        digits.parse().expect(SHAPE)
    }

    fn text(&mut self) -> String {
        self.skip("\"");
        let mut text = String::new();
        loop {
            let (plain, rest) = self.0.split_at(self.0.find(['"', '\\']).expect(SHAPE));
            text.push_str(plain);
            self.0 = rest;
            if self.skips("\"") {
                return text;
            }
            self.skip("\\");
            let escape = self.0.chars().next().expect(SHAPE);
            self.0 = &self.0[escape.len_utf8()..];
            text.push(match escape {
                'b' => '\u{8}',
                'f' => '\u{c}',
                'n' => '\n',
                'r' => '\r',
                't' => '\t',
                'u' => self.control(),
                it => it,
            });
        }
    }

    // A control character, from its four hexadecimal digits: the library escapes no other character by its number.
    fn control(&mut self) -> char {
        let (digits, rest) = self.0.split_at(4);
        self.0 = rest;
        u32::from_str_radix(digits, 16).ok().and_then(char::from_u32).expect(SHAPE)
    }

    fn bound(&mut self) -> RangeBound {
        if self.skips("null") {
            return RangeBound::Unbounded;
        }
        self.skip("{\"inclusive\":");
        let kind = if self.skips("true") { VersionBoundKind::Inclusive } else { VersionBoundKind::Exclusive };
        self.skips("false");
        self.skip(",\"version\":");
        let version = self.text();
        self.skip("}");
        RangeBound::version(kind, Version::parse_standard(&version).expect(SHAPE))
    }

    // The members "end" and "start".
    fn bounds(&mut self) -> VersionRange {
        self.skip("\"end\":");
        let end = self.bound();
        self.skip(",\"start\":");
        let start = self.bound();
        VersionRange { start, end }
    }

    fn range(&mut self) -> VersionRange {
        self.skip("{");
        let range = self.bounds();
        self.skip("}");
        range
    }

    fn comparator(&mut self) -> Comparator {
        self.skip("{");
        let range = self.bounds();
        self.skip(",\"text\":");
        let text = self.text();
        self.skip("}");
        Comparator { text, range }
    }

    fn error(&mut self) -> (String, Place) {
        self.skip("{\"end\":");
        let end = self.number();
        self.skip(",\"expected\":");
        let expected = self.list(Self::text);
        self.skip(",\"message\":");
        let message = self.text();
        self.skip(",\"start\":");
        let start = self.number();
        self.skip("}");
        (message, Place { start, end, expected })
    }

    fn left_out(&mut self) -> LeftOut {
        let (message, place) = self.error();
        LeftOut { message, place }
    }

    // What an alternative means, from behind the name of its first member.
    fn meaning(&mut self) -> Meaning {
        let comparators = self.list(Self::comparator);
        self.skip(",\"end\":");
        let end = self.bound();
        self.skip(",\"lowest\":");
        let lowest = if self.skips("null") { None } else { Some(self.text()) };
        self.skip(",\"pre-releases\":");
        let pre_releases = if self.skips("\"all\"") { PreReleases::All } else { PreReleases::Of(self.list(Self::text)) };
        self.skip(",\"start\":");
        let start = self.bound();
        Meaning { comparators, range: VersionRange { start, end }, pre_releases, lowest }
    }

    fn alternative(&mut self) -> Alternative {
        let meaning = if self.skips("{\"comparators\":") {
            Ok(self.meaning())
        } else {
            self.skip("{\"error\":");
            Err(self.left_out())
        };
        self.skip(",\"text\":");
        let text = self.text();
        self.skip("}");
        Alternative { text, meaning }
    }

    fn explanation(&mut self) -> Explanation {
        self.skip("{\"alternatives\":");
        let alternatives = self.list(Self::alternative);
        self.skip(",\"normal\":");
        let canonical = self.text();
        self.skip("}");
        Explanation { alternatives, canonical }
    }
}

/// Ranges, each with its bounds.
pub(crate) fn ranges(json: &str) -> VersionRangeSet {
    VersionRangeSet(Json(json).list(Json::range).into())
}

/// What a range means.
pub(crate) fn explanation(json: &str) -> Explanation {
    Json(json).explanation()
}

/// The first of the errors that a call writes. None for an empty array.
pub(crate) fn first_error(call: impl FnMut(&mut [u8], &mut usize) -> i32) -> Option<Place> {
    with_text(call, |_, json| Json(json).list(Json::error).into_iter().next().map(|(_, place)| place))
}
