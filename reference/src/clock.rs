//! The clock: a date and a time of day, without the weekday, which is worked
//! out from the date.

use crate::outcome::Outcome;

/// A moment as the clock bytes hold it; any numbers, valid or not.
#[derive(Clone, Copy, Debug, PartialEq, Eq)]
pub struct Clock {
    /// 0 to 59.
    pub second: u8,
    /// 0 to 59.
    pub minute: u8,
    /// 0 to 23.
    pub hour: u8,
    /// From 1.
    pub day: u8,
    /// 1 to 12.
    pub month: u8,
    /// 2000 to 2099.
    pub year: u16,
}

/// A field of the clock, numbered by its first byte.
#[derive(Clone, Copy, Debug, PartialEq, Eq)]
#[repr(u8)]
pub enum Field {
    /// Byte 0.
    Second = 0,
    /// Byte 1.
    Minute = 1,
    /// Byte 2.
    Hour = 2,
    /// Byte 3.
    Day = 3,
    /// Byte 4.
    Month = 4,
    /// Bytes 5 and 6.
    Year = 5,
}

impl Clock {
    /// The first year of a valid date.
    pub const FIRST_YEAR: u16 = 2000;
    /// The last year of a valid date.
    pub const LAST_YEAR: u16 = 2099;

    /// Reads the seven clock bytes: second, minute, hour, day, month, year low,
    /// year high.
    #[must_use]
    pub const fn from_bytes(bytes: [u8; 7]) -> Self {
        let [second, minute, hour, day, month, low, high] = bytes;
        Self {
            second,
            minute,
            hour,
            day,
            month,
            year: u16::from_le_bytes([low, high]),
        }
    }

    /// The seven clock bytes.
    #[must_use]
    pub const fn to_bytes(self) -> [u8; 7] {
        let [low, high] = self.year.to_le_bytes();
        [
            self.second,
            self.minute,
            self.hour,
            self.day,
            self.month,
            low,
            high,
        ]
    }

    /// The first field at fault, in the order opcode 8 checks them: the day
    /// last, since month and year decide how far it goes.
    #[must_use]
    pub fn first_fault(self) -> Option<Field> {
        if self.second > 59 {
            Some(Field::Second)
        } else if self.minute > 59 {
            Some(Field::Minute)
        } else if self.hour > 23 {
            Some(Field::Hour)
        } else if !(1..=12).contains(&self.month) {
            Some(Field::Month)
        } else if !(Self::FIRST_YEAR..=Self::LAST_YEAR).contains(&self.year) {
            Some(Field::Year)
        } else if !(1..=Self::days_in_month(self.year, self.month)).contains(&self.day) {
            Some(Field::Day)
        } else {
            None
        }
    }

    /// Whether this is a valid date, as the rules have it.
    #[must_use]
    pub fn is_valid(self) -> bool {
        self.first_fault().is_none()
    }

    /// One second later; the last second of the last year stays. For a valid
    /// date.
    #[must_use]
    pub fn next(self) -> Self {
        let mut next = self;
        if self.second < 59 {
            next.second += 1;
            return next;
        }
        next.second = 0;
        if self.minute < 59 {
            next.minute += 1;
            return next;
        }
        next.minute = 0;
        if self.hour < 23 {
            next.hour += 1;
            return next;
        }
        next.hour = 0;
        if self.day < Self::days_in_month(self.year, self.month) {
            next.day += 1;
            return next;
        }
        next.day = 1;
        if self.month < 12 {
            next.month += 1;
            return next;
        }
        next.month = 1;
        if self.year < Self::LAST_YEAR {
            next.year += 1;
            return next;
        }
        self
    }

    /// The weekday of a valid date, 1 = Sunday to 7 = Saturday.
    #[must_use]
    pub fn weekday(self) -> u8 {
        // Of 2000 to 2099 every fourth year is leap, the first of them too.
        let before = u32::from(self.year.saturating_sub(Self::FIRST_YEAR));
        let years = before * 365 + before.div_ceil(4);
        let months: u32 = (1..self.month)
            .map(|month| u32::from(Self::days_in_month(self.year, month)))
            .sum();
        // 2000-01-01, day 1 of this count, was a Saturday.
        let days = years + months + u32::from(self.day);
        ((days + 5) % 7 + 1) as u8
    }

    /// The days of a month from 1 to 12.
    #[must_use]
    pub const fn days_in_month(year: u16, month: u8) -> u8 {
        match month {
            4 | 6 | 9 | 11 => 30,
            2 if Self::is_leap(year) => 29,
            2 => 28,
            _ => 31,
        }
    }

    /// Whether a Gregorian year has a 29th of February.
    #[must_use]
    pub const fn is_leap(year: u16) -> bool {
        year.is_multiple_of(4) && (!year.is_multiple_of(100) || year.is_multiple_of(400))
    }
}

/// One second later. Outcome 0, or 3 for an invalid date, which stays as it is.
pub fn tick(clock: &mut [u8; 7]) -> u8 {
    let now = Clock::from_bytes(*clock);
    if !now.is_valid() {
        return Outcome::Setting.number();
    }
    *clock = now.next().to_bytes();
    Outcome::ActedOn.number()
}
