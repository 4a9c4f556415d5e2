//! Document 01, "The sheet", with request 2026-03: the ranges of the fields.

use crate::sheet::MAX_WH;

/// Declares the ranges, and the list of all of them.
macro_rules! ranges {
    ($($(#[$doc:meta])* $name:ident,)*) => {
        /// A field's range. A header field that hangs on model or source has
        /// several; a row field has a fixed one, and where it may clash those
        /// that model, source, status or water class allow.
        #[derive(Clone, Copy, Debug, PartialEq, Eq)]
        pub enum Range {
            $($(#[$doc])* $name,)*
        }

        impl Range {
            pub const ALL: &'static [Range] = &[$(Range::$name,)*];
        }
    };
}

ranges! {
    Month,
    Model,
    UnitCount,
    Source,
    /// v
    BasePercentModel3,
    BasePercentModel4,
    BasePercentElse,
    /// z
    CommonHeatPercent,
    CommonHeatPercentElse,
    /// y
    CommonWaterPercent,
    CommonWaterPercentSource0,
    /// f
    UnmeteredFactor,
    UnmeteredFactorElse,
    /// t
    LossFactor,
    LossFactorElse,
    /// M
    SharedMeter,
    Price,
    /// h1
    FirstInputSource0,
    FirstInputSource2,
    FirstInputElse,
    /// h2 to h6
    LaterInputSource3,
    LaterInputElse,
    Status,
    StatusModels1And2,
    WaterClass,
    WaterClassSource0,
    /// KF
    LocationFactor,
    /// p
    HeatedArea,
    /// s
    RiserSurface,
    /// q
    HeatLoad,
    /// b
    Reading,
    ReadingModels1And2,
    ReadingUnread,
    ReadingModels3And4,
    Litres,
    LitresClass0,
    LitresClass2,
    Persons,
    PersonsClass0,
    /// A row's last two bytes.
    Reserved,
}

use Range::*;

/// A field by offset and size.
pub enum Field {
    Header(usize, usize),
    /// h2 to h6: four bytes each, from byte 28 on.
    LaterInputs,
    Row(usize, usize),
}

impl Range {
    /// The fixed ranges of a row's fields, in layout order.
    pub const OF_ROWS: [Range; 10] = [
        Status,
        WaterClass,
        LocationFactor,
        HeatedArea,
        RiserSurface,
        HeatLoad,
        Reading,
        Litres,
        Persons,
        Reserved,
    ];

    /// The ranges by which a row's fields clash.
    pub const CLASHES: [Range; 8] = [
        StatusModels1And2,
        WaterClassSource0,
        ReadingModels1And2,
        ReadingUnread,
        ReadingModels3And4,
        LitresClass0,
        LitresClass2,
        PersonsClass0,
    ];

    /// Where the field lies: in the header or in a row, and how many bytes
    /// it has.
    pub fn field(self) -> Field {
        match self {
            Month => Field::Header(6, 1),
            Model => Field::Header(7, 1),
            UnitCount => Field::Header(8, 2),
            Source => Field::Header(10, 1),
            BasePercentModel3 | BasePercentModel4 | BasePercentElse => Field::Header(11, 1),
            CommonHeatPercent | CommonHeatPercentElse => Field::Header(12, 1),
            CommonWaterPercent | CommonWaterPercentSource0 => Field::Header(13, 1),
            UnmeteredFactor | UnmeteredFactorElse => Field::Header(14, 1),
            LossFactor | LossFactorElse => Field::Header(15, 1),
            SharedMeter => Field::Header(16, 4),
            Price => Field::Header(20, 4),
            FirstInputSource0 | FirstInputSource2 | FirstInputElse => Field::Header(24, 4),
            LaterInputSource3 | LaterInputElse => Field::LaterInputs,
            Status | StatusModels1And2 => Field::Row(4, 1),
            WaterClass | WaterClassSource0 => Field::Row(5, 1),
            LocationFactor => Field::Row(6, 2),
            HeatedArea => Field::Row(8, 4),
            RiserSurface => Field::Row(12, 4),
            HeatLoad => Field::Row(16, 4),
            Reading | ReadingModels1And2 | ReadingUnread | ReadingModels3And4 => Field::Row(20, 4),
            Litres | LitresClass0 | LitresClass2 => Field::Row(24, 4),
            Persons | PersonsClass0 => Field::Row(28, 2),
            Reserved => Field::Row(30, 2),
        }
    }

    /// Lowest and highest.
    pub fn ends(self) -> (u32, u32) {
        match self {
            Month => (1, 12),
            Model => (1, 5),
            UnitCount => (1, 160),
            Source => (0, 3),
            BasePercentModel3 => (20, 30),
            BasePercentModel4 => (0, 60),
            CommonHeatPercent | CommonWaterPercent | Persons => (0, 50),
            UnmeteredFactor => (25, 35),
            LossFactor => (50, 200),
            SharedMeter | FirstInputElse | LaterInputSource3 => (0, MAX_WH),
            Price | HeatLoad => (0, 100_000),
            FirstInputSource2 => (0, 20_000_000),
            Status => (0, 4),
            WaterClass => (0, 2),
            LocationFactor => (1, 1_000),
            HeatedArea => (1, 10_000),
            RiserSurface => (0, 10_000),
            Reading => (0, 25_000_000),
            ReadingModels3And4 => (0, 50_000),
            Litres => (0, 1_000_000),
            BasePercentElse
            | CommonHeatPercentElse
            | CommonWaterPercentSource0
            | UnmeteredFactorElse
            | LossFactorElse
            | FirstInputSource0
            | LaterInputElse
            | StatusModels1And2
            | WaterClassSource0
            | ReadingModels1And2
            | ReadingUnread
            | LitresClass0
            | LitresClass2
            | PersonsClass0
            | Reserved => (0, 0),
        }
    }

    pub fn holds(self, value: impl Into<u32>) -> bool {
        let (lowest, highest) = self.ends();
        (lowest..=highest).contains(&value.into())
    }
}
