//! The functions of `include/ulb.h`, as they are. A slice is a pointer and its length.

macro_rules! calls {
    ($($(#[$note:meta])* $name:ident($($arg:ident: $kind:ty),*);)*) => {
        extern "C" { $($(#[$note])* pub fn $name($($arg: $kind),*) -> u8;)* }
    };
}

type In = *const u8;
type Out = *mut u8;

calls! {
    #[allow(dead_code)] // it is ulb_start_colour with 0, by which the layer starts
    ulb_start(state: Out, state_len: usize, ram: Out, ram_len: usize, a: Out, a_len: usize, b: Out, b_len: usize,
        border: Out, border_len: usize, machine: u32);
    ulb_start_colour(state: Out, state_len: usize, ram: Out, ram_len: usize, a: Out, a_len: usize, b: Out, b_len: usize,
        border: Out, border_len: usize, machine: u32, colour: u32);
    ulb_wait_internal(state: Out, state_len: usize, ram: In, ram_len: usize, a: Out, a_len: usize, b: Out, b_len: usize,
        border: Out, border_len: usize, clocks: u32, answer: Out, answer_len: usize);
    ulb_wait_mreq(state: Out, state_len: usize, ram: In, ram_len: usize, a: Out, a_len: usize, b: Out, b_len: usize,
        border: Out, border_len: usize, addr: u16, clocks: u32, answer: Out, answer_len: usize);
    ulb_wait_no_mreq(state: Out, state_len: usize, ram: In, ram_len: usize, a: Out, a_len: usize, b: Out, b_len: usize,
        border: Out, border_len: usize, addr: u16, clocks: u32, answer: Out, answer_len: usize);
    ulb_read_io(state: Out, state_len: usize, devices: In, devices_len: usize, ram: In, ram_len: usize, a: Out,
        a_len: usize, b: Out, b_len: usize, border: Out, border_len: usize, port: u16, answer: Out, answer_len: usize);
    ulb_write_io(state: Out, state_len: usize, devices: In, devices_len: usize, ram: In, ram_len: usize, a: Out,
        a_len: usize, b: Out, b_len: usize, border: Out, border_len: usize, port: u16, value: u8, answer: Out,
        answer_len: usize);
    ulb_read_internal(state: In, state_len: usize, rom: In, rom_len: usize, ram: In, ram_len: usize, addr: u16,
        answer: Out, answer_len: usize);
    ulb_write_internal(state: In, state_len: usize, ram: Out, ram_len: usize, addr: u16, value: u8);
    ulb_write_7ffd(state: Out, state_len: usize, value: u8, answer: Out, answer_len: usize);
    ulb_read_7ffd(state: In, state_len: usize, answer: Out, answer_len: usize);
    ulb_int_active(state: In, state_len: usize, answer: Out, answer_len: usize);
    ulb_frames_count(state: In, state_len: usize, answer: Out, answer_len: usize);
    ulb_reset_frame_counter(state: Out, state_len: usize);
    ulb_load_page(state: In, state_len: usize, ram: Out, ram_len: usize, bytes: In, bytes_len: usize, page: u32);
    ulb_save_scr(state: In, state_len: usize, ram: In, ram_len: usize, file: Out, file_len: usize);
    ulb_load_scr(state: In, state_len: usize, ram: Out, ram_len: usize, file: In, file_len: usize, page: u32);
    ulb_load_sna(state: Out, state_len: usize, ram: Out, ram_len: usize, file: In, file_len: usize, registers: Out,
        registers_len: usize, a: Out, a_len: usize, b: Out, b_len: usize, border: Out, border_len: usize, machine: u32);
    ulb_save_sna(state: In, state_len: usize, ram: In, ram_len: usize, file: Out, file_len: usize, registers: In,
        registers_len: usize);
    ulb_ram_page(state: In, state_len: usize, ram: In, ram_len: usize, page: u32, answer: Out, answer_len: usize);
    ulb_block(state: In, state_len: usize, rom: In, rom_len: usize, ram: In, ram_len: usize, block: u32, answer: Out,
        answer_len: usize);
    ulb_shown_picture(state: In, state_len: usize, a: In, a_len: usize, b: In, b_len: usize, answer: Out,
        answer_len: usize);
    ulb_still_picture(state: In, state_len: usize, ram: In, ram_len: usize, picture: Out, picture_len: usize,
        flash: u32);
    ulb_bitmap_line_addr(number: u32, answer: Out, answer_len: usize);
    ulb_bitmap_line_rel(number: u32, answer: Out, answer_len: usize);
    ulb_bitmap_col_rel(number: u32, answer: Out, answer_len: usize);
    ulb_attr_row_rel(number: u32, answer: Out, answer_len: usize);
    ulb_attr_col_rel(number: u32, answer: Out, answer_len: usize);
    ulb_color_from_bits(number: u32, answer: Out, answer_len: usize);
}
