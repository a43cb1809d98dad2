//! A stand-in for the crate forensicnomicon, whose text is not at hand: the names that timeglyph's src/registry.rs takes
//! from its module `temporal_formats`, and no more. Of the catalogue there are the sixteen packed layouts, in the order of
//! their numbers in document 01. The epoch's value is document 01's.

pub mod temporal_formats {
    #[derive(Clone, Copy)]
    pub enum PackedLayout {
        FatDos,
        ExFat,
        Dttm,
        BitDate,
        BitDec,
        Bcd,
        Moto,
        Symantec,
        Dvr,
        Ns40,
        Ns40Le,
        LogTime,
        SemiOctet,
        Gsm,
        NokiaLe,
        SqlServer,
    }

    pub enum Encoding {
        LinearInt {},
        LinearFloat {},
        Embedded {},
        Packed(PackedLayout),
    }

    pub struct TimeFormat {
        pub encoding: Encoding,
    }

    /// 1900-01-01, in nanoseconds since 1970.
    pub const SQLSERVER_EPOCH_NS: i128 = -2_208_988_800_000_000_000;

    pub static TIME_FORMATS: [TimeFormat; 16] = [
        packed(PackedLayout::FatDos),
        packed(PackedLayout::ExFat),
        packed(PackedLayout::Dttm),
        packed(PackedLayout::BitDate),
        packed(PackedLayout::BitDec),
        packed(PackedLayout::Bcd),
        packed(PackedLayout::Moto),
        packed(PackedLayout::Symantec),
        packed(PackedLayout::Dvr),
        packed(PackedLayout::Ns40),
        packed(PackedLayout::Ns40Le),
        packed(PackedLayout::LogTime),
        packed(PackedLayout::SemiOctet),
        packed(PackedLayout::Gsm),
        packed(PackedLayout::NokiaLe),
        packed(PackedLayout::SqlServer),
    ];

    const fn packed(layout: PackedLayout) -> TimeFormat {
        TimeFormat {
            encoding: Encoding::Packed(layout),
        }
    }
}
