//! The typed parts of a record, each with the columns it is taken from and put
//! into. Numbers are numbers, each quantity of its own kind; text and codes are
//! the bytes of their columns; an absent field is `None`. Columns that always
//! hold the same (5, 6, 26, ..) are no parts.

use crate::layout::{blank, columns, number};

/// A kind of content.
pub trait Content {
    /// Takes it from a field that was judged good.
    fn take(field: &[u8]) -> Self;
    /// Puts it into a blank field; what no legal field holds leaves a byte 0 there.
    fn put(&self, field: &mut [u8]);
}

impl Content for u8 {
    fn take(field: &[u8]) -> Self {
        field[0]
    }
    fn put(&self, field: &mut [u8]) {
        field[0] = *self;
    }
}

impl<const N: usize> Content for [u8; N] {
    fn take(field: &[u8]) -> Self {
        std::array::from_fn(|at| field[at])
    }
    fn put(&self, field: &mut [u8]) {
        field.copy_from_slice(self);
    }
}

/// A field that may be absent. Filled with blanks is the content of no field,
/// so that becomes a byte 0.
impl<T: Content> Content for Option<T> {
    fn take(field: &[u8]) -> Self {
        (!blank(field)).then(|| T::take(field))
    }
    fn put(&self, field: &mut [u8]) {
        if let Some(content) = self {
            content.put(field);
            if blank(field) {
                field[0] = 0;
            }
        }
    }
}

/// A number with leading zeros. One with more digits than the field has columns
/// becomes a byte 0.
impl Content for u32 {
    fn take(field: &[u8]) -> Self {
        number(field)
    }
    fn put(&self, field: &mut [u8]) {
        let content = format!("{self:0width$}", width = field.len());
        match content.len() == field.len() {
            true => field.copy_from_slice(content.as_bytes()),
            false => field[0] = 0,
        }
    }
}

/// Numbers of one unit each, so that none can stand for another.
macro_rules! units {
    ($($name:ident)*) => {$(
        #[derive(Clone, Copy, Debug, PartialEq, Eq)]
        pub struct $name(pub u32);

        impl Content for $name {
            fn take(field: &[u8]) -> Self {
                $name(number(field))
            }
            fn put(&self, field: &mut [u8]) {
                self.0.put(field);
            }
        }
    )*};
}

units! {
    WholeDegrees TenthsOfDegree HundredthsOfDegree TenthsOfMile ThousandthsOfMile TenthsOfMinute Feet FlightLevel
}

/// Numbers written in one of several forms: the letters before the digits and
/// those behind them tell which; the form without letters is the last.
macro_rules! forms {
    ($($name:ident { $($form:ident($unit:ident) = $before:literal $behind:literal,)* })*) => {$(
        #[derive(Clone, Copy, Debug, PartialEq, Eq)]
        pub enum $name {
            $($form($unit),)*
        }

        impl Content for $name {
            fn take(field: &[u8]) -> Self {
                $(if field.starts_with($before) && field.ends_with($behind) {
                    return $name::$form(Content::take(&field[$before.len()..field.len() - $behind.len()]));
                })*
                unreachable!("a field that was judged good has one of its forms")
            }
            fn put(&self, field: &mut [u8]) {
                match self {
                    $($name::$form(value) => {
                        let end = field.len() - $behind.len();
                        field[..$before.len()].copy_from_slice($before);
                        field[end..].copy_from_slice($behind);
                        value.put(&mut field[$before.len()..end]);
                    })*
                }
            }
        }
    )*};
}

forms! {
    Course {
        True(WholeDegrees) = b"" b"T",
        Magnetic(TenthsOfDegree) = b"" b"",
    }
    Distance {
        Minutes(TenthsOfMinute) = b"T" b"",
        Miles(TenthsOfMile) = b"" b"",
    }
    Altitude {
        Level(FlightLevel) = b"FL" b"",
        Below(Feet) = b"-" b"",
        Above(Feet) = b"" b"",
    }
    VerticalAngle {
        Down(HundredthsOfDegree) = b"-" b"",
    }
}

#[derive(Clone, Copy, Debug, PartialEq, Eq)]
pub struct Cycle {
    pub year: u32,
    pub number: u32,
}

impl Content for Cycle {
    fn take(field: &[u8]) -> Self {
        Cycle { year: number(&field[..2]), number: number(&field[2..]) }
    }
    fn put(&self, field: &mut [u8]) {
        let (year, number) = field.split_at_mut(2);
        self.year.put(year);
        self.number.put(number);
    }
}

/// A struct whose fields stand in the columns named behind them.
macro_rules! parts {
    ($(#[$doc:meta])* $name:ident { $($part:ident: $content:ty = $first:literal - $last:literal,)* }) => {
        $(#[$doc])*
        #[derive(Clone, Copy, Debug, PartialEq, Eq)]
        pub struct $name {
            $(pub $part: $content,)*
        }

        impl $name {
            pub fn take(rec: &[u8]) -> Self {
                $name { $($part: Content::take(columns(rec, ($first, $last))),)* }
            }
            pub fn put(&self, rec: &mut [u8]) {
                $(self.$part.put(&mut rec[$first - 1..$last]);)*
            }
        }
    };
}

parts! {
    /// What both kinds of record have.
    Frame {
        record_type: u8 = 1 - 1,
        area: [u8; 3] = 2 - 4,
        airport: [u8; 4] = 7 - 10,
        icao: [u8; 2] = 11 - 12,
        subsection: u8 = 13 - 13,
        procedure: [u8; 6] = 14 - 19,
        route_type: u8 = 20 - 20,
        transition: [u8; 5] = 21 - 25,
        sequence: u32 = 27 - 29,
        fix: Option<[u8; 5]> = 30 - 34,
        fix_icao: Option<[u8; 2]> = 35 - 36,
        fix_section: Option<u8> = 37 - 37,
        fix_subsection: u8 = 38 - 38,
        continuation_number: u8 = 39 - 39,
        file_record: u32 = 124 - 128,
        cycle: Cycle = 129 - 132,
    }
}

parts! {
    /// What only a primary record has.
    Leg {
        description: [u8; 4] = 40 - 43,
        turn: Option<u8> = 44 - 44,
        rnp: Option<u32> = 45 - 47,
        terminator: [u8; 2] = 48 - 49,
        turn_valid: Option<u8> = 50 - 50,
        navaid: Option<[u8; 4]> = 51 - 54,
        navaid_icao: Option<[u8; 2]> = 55 - 56,
        arc_radius: Option<ThousandthsOfMile> = 57 - 62,
        theta: Option<TenthsOfDegree> = 63 - 66,
        rho: Option<TenthsOfMile> = 67 - 70,
        course: Option<Course> = 71 - 74,
        distance: Option<Distance> = 75 - 78,
        navaid_section: Option<u8> = 79 - 79,
        navaid_subsection: u8 = 80 - 80,
        altitude_description: u8 = 83 - 83,
        atc: Option<u8> = 84 - 84,
        altitude1: Option<Altitude> = 85 - 89,
        altitude2: Option<Altitude> = 90 - 94,
        transition_altitude: Option<Feet> = 95 - 99,
        speed: Option<u32> = 100 - 102,
        vertical_angle: Option<VerticalAngle> = 103 - 106,
        centre: Option<[u8; 5]> = 107 - 111,
        multiple: Option<u8> = 112 - 112,
        centre_icao: Option<[u8; 2]> = 113 - 114,
        centre_section: Option<u8> = 115 - 115,
        centre_subsection: u8 = 116 - 116,
        gps_fms: Option<u8> = 117 - 117,
        qualifier1: Option<u8> = 119 - 119,
        qualifier2: Option<u8> = 120 - 120,
    }
}

parts! {
    /// What only a continuation record has.
    Continuation {
        application: u8 = 40 - 40,
        bytes: [u8; 83] = 41 - 123,
    }
}

/// A whole record.
#[derive(Clone, Copy, Debug, PartialEq, Eq)]
pub enum Parts {
    Leg(Frame, Leg),
    Continuation(Frame, Continuation),
}
