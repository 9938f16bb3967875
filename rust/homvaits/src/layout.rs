// The layout, as in tests/c/use.c: sizes, and of each field its offset and width. Included where the structs have these names, with or
// without std.

use core::mem::offset_of;

const fn width<T, F>(_field: fn(&T) -> &F) -> usize {
    size_of::<F>()
}

macro_rules! layout {
    ($name:ty, $size:literal, $($field:ident $at:literal $width:literal),+) => {
        const _: () = {
            assert!(size_of::<$name>() == $size);
            $(assert!(offset_of!($name, $field) == $at);
            assert!(width(|value: &$name| &value.$field) == $width);)+
        };
    };
}

layout!(Task, 10, period 0 2, budget 2 2, age 4 2, left 6 2, number 8 1, stroke 9 1);
layout!(Core, 656, count 0 8, tasks 8 640, stroke_task 648 1, stroke_left 649 1);
layout!(Checked, 6, refusal 0 1, place 2 2, tasks 4 1, cores 5 1);
layout!(Planned, 8, refusal 0 1, place 2 2, tasks 4 1, cores 5 1, length 6 2);
layout!(Step, 664, refusal 0 1, place 2 2, core 8 656);
layout!(Ticked, 664, refusal 0 1, place 2 2, task 4 1, core 8 656);
layout!(RowTicked, 16, refusal 0 1, place 8 8);
layout!(Listed, 6, refusal 0 1, place 2 2, length 4 2);
layout!(Margined, 8, refusal 0 1, place 2 2, margin 4 4);
layout!(Moved, 6, refusal 0 1, place 2 2, length 4 2);
