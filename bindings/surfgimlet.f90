! Surfgimlet for Fortran: every call of include/surfgimlet.h, which says what each is given, answers and refuses.
! Fortran has no unsigned numbers: a phase is handed over as the 32 bits that `phase` makes of it, and a gravity constant or a
! radius of 2**63 or more, which no planet has, comes as a number below 0.
module surfgimlet
    use, intrinsic :: iso_c_binding
    implicit none
    private
    public :: c_int32_t, c_int64_t, c_size_t, c_double, c_int8_t, c_char
    public :: phases, hour, body, own_line, phase, words
    public :: version, start_hour, set_hour, move_hour
    public :: solid_tide, all_lines, major_lines, own_lines, pole_tide, ocean_tide, move_c20
    public :: multipliers_of, number_of, find_line
    public :: file_bytes, write_field, file_head, read_field

    integer(c_int32_t), parameter, public :: header_version = 4002000
    integer(c_int32_t), parameter, public :: elastic = 0, anelastic = 1
    integer(c_int32_t), parameter, public :: centre_of_figure = 0, centre_of_mass = 1
    integer(c_int32_t), parameter, public :: tide_free = 0, zero_tide = 1, mean_tide = 2
    integer(c_int32_t), parameter, public :: rectangular = 0, direction = 1
    integer(c_int32_t), parameter, public :: argument_tau = 0, argument_s = 1, argument_h = 2
    integer(c_int32_t), parameter, public :: argument_p = 3, argument_np = 4, argument_ps = 5

    ! np is N' = -Omega
    type, bind(c) :: phases
        integer(c_int32_t) :: tau, s, h, p, np, ps
    end type

    ! six phases, and the cosines and sines of the 49 printed lines at them, in units of 2**(-30), line i at i + 1
    type, bind(c) :: hour
        type(phases) :: phases
        integer(c_int32_t) :: cosines(49), sines(49)
    end type

    ! the mass in Earth masses; x, y, z and the distance r in metres, or x, y, z of length one
    type, bind(c) :: body
        integer(c_int32_t) :: kind
        real(c_double) :: ratio, x, y, z, r
    end type

    ! six multipliers, and the amplitudes in phase and out of phase in tenths of 10^-12
    type, bind(c) :: own_line
        integer(c_int32_t) :: tau, s, h, p, np, ps
        integer(c_int64_t) :: ip, op
    end type

    interface
        integer(c_int32_t) function version() bind(c, name="surfgimlet_version")
            import
        end function

        type(hour) function start_hour() bind(c, name="surfgimlet_start_hour")
            import
        end function

        type(hour) function set_hour(at) bind(c, name="surfgimlet_set_hour")
            import
            type(phases), value :: at
        end function

        ! the answer is 0 or 100
        type(hour) function move_hour(at, argument, amount, answer) bind(c, name="surfgimlet_move_hour")
            import
            type(hour), value :: at
            integer(c_int32_t), value :: argument, amount
            integer(c_int32_t), intent(out) :: answer
        end function

        integer(c_int32_t) function c_solid_tide(n, c, c_length, s, s_length, moon, sun, love_model, at, selection, lines) &
            bind(c, name="surfgimlet_solid_tide")
            import
            integer(c_int32_t), value :: n, love_model
            integer(c_int64_t), intent(inout) :: c(*), s(*)
            integer(c_size_t), value :: c_length, s_length
            type(body), value :: moon, sun
            type(hour), value :: at
            integer(c_int64_t), value :: selection
            integer(c_int32_t), intent(inout) :: lines
        end function

        integer(c_int64_t) function all_lines() bind(c, name="surfgimlet_all_lines")
            import
        end function

        integer(c_int64_t) function major_lines() bind(c, name="surfgimlet_major_lines")
            import
        end function

        integer(c_int32_t) function c_own_lines(n, c, c_length, s, s_length, lines, lines_length, at) &
            bind(c, name="surfgimlet_own_lines")
            import
            integer(c_int32_t), value :: n
            integer(c_int64_t), intent(inout) :: c(*), s(*)
            integer(c_size_t), value :: c_length, s_length, lines_length
            type(own_line), intent(in) :: lines(*)
            type(phases), value :: at
        end function

        integer(c_int32_t) function c_pole_tide(n, c, c_length, s, s_length, xp, yp, love_model) &
            bind(c, name="surfgimlet_pole_tide")
            import
            integer(c_int32_t), value :: n, love_model
            integer(c_int64_t), intent(inout) :: c(*), s(*)
            integer(c_size_t), value :: c_length, s_length
            integer(c_int64_t), value :: xp, yp
        end function

        integer(c_int32_t) function c_ocean_tide(n, c, c_length, s, s_length, sheet, sheet_length, at, frame) &
            bind(c, name="surfgimlet_ocean_tide")
            import
            integer(c_int32_t), value :: n, frame
            integer(c_int64_t), intent(inout) :: c(*), s(*)
            integer(c_size_t), value :: c_length, s_length, sheet_length
            integer(c_int8_t), intent(in) :: sheet(*)
            type(phases), value :: at
        end function

        integer(c_int32_t) function move_c20(c20, from, to, love_model, moved) bind(c, name="surfgimlet_move_c20")
            import
            integer(c_int64_t), value :: c20
            integer(c_int32_t), value :: from, to, love_model
            integer(c_int64_t), intent(inout) :: moved
        end function

        integer(c_int32_t) function multipliers_of(number, multipliers) bind(c, name="surfgimlet_multipliers_of")
            import
            integer(c_int32_t), value :: number
            integer(c_int32_t), intent(inout) :: multipliers(6)
        end function

        integer(c_int32_t) function number_of(multipliers, number) bind(c, name="surfgimlet_number_of")
            import
            integer(c_int32_t), intent(in) :: multipliers(6)
            integer(c_int32_t), intent(inout) :: number
        end function

        integer(c_int32_t) function find_line(number, index, first, second) bind(c, name="surfgimlet_find_line")
            import
            integer(c_int32_t), value :: number
            integer(c_size_t), intent(inout) :: index
            integer(c_int64_t), intent(inout) :: first, second
        end function

        integer(c_int32_t) function c_write_field(n, c, c_length, s, s_length, constant, radius, system, text, text_length, &
            written) bind(c, name="surfgimlet_write_field")
            import
            integer(c_int32_t), value :: n, system
            integer(c_int64_t), intent(in) :: c(*), s(*)
            integer(c_size_t), value :: c_length, s_length, text_length
            integer(c_int64_t), value :: constant, radius
            character(kind=c_char), intent(inout) :: text(*)
            integer(c_size_t), intent(inout) :: written
        end function

        integer(c_int32_t) function c_file_head(text, text_length, degree, constant, radius, system) &
            bind(c, name="surfgimlet_file_head")
            import
            character(kind=c_char), intent(in) :: text(*)
            integer(c_size_t), value :: text_length
            integer(c_int32_t), intent(inout) :: degree, system
            integer(c_int64_t), intent(inout) :: constant, radius
        end function

        integer(c_int32_t) function c_read_field(text, text_length, c, c_length, s, s_length, degree, constant, radius, system) &
            bind(c, name="surfgimlet_read_field")
            import
            character(kind=c_char), intent(in) :: text(*)
            integer(c_size_t), value :: text_length, c_length, s_length
            integer(c_int64_t), intent(inout) :: c(*), s(*)
            integer(c_int32_t), intent(inout) :: degree, system
            integer(c_int64_t), intent(inout) :: constant, radius
        end function
    end interface

contains

    ! bit i of the selection names line i, as ibset(0_c_int64_t, i); lines is how many are named
    integer(c_int32_t) function solid_tide(n, c, s, moon, sun, love_model, at, selection, lines) result(answer)
        integer(c_int32_t), intent(in) :: n, love_model
        integer(c_int64_t), intent(inout), contiguous :: c(:), s(:)
        type(body), intent(in) :: moon, sun
        type(hour), intent(in) :: at
        integer(c_int64_t), intent(in) :: selection
        integer(c_int32_t), intent(inout) :: lines
        answer = c_solid_tide(n, c, size(c, kind=c_size_t), s, size(s, kind=c_size_t), moon, sun, love_model, at, selection, lines)
    end function

    integer(c_int32_t) function own_lines(n, c, s, lines, at) result(answer)
        integer(c_int32_t), intent(in) :: n
        integer(c_int64_t), intent(inout), contiguous :: c(:), s(:)
        type(own_line), intent(in), contiguous :: lines(:)
        type(phases), intent(in) :: at
        answer = c_own_lines(n, c, size(c, kind=c_size_t), s, size(s, kind=c_size_t), lines, size(lines, kind=c_size_t), at)
    end function

    ! xp and yp are the pole's offsets from its mean in whole micro-arcseconds, yp towards 90 degrees west
    integer(c_int32_t) function pole_tide(n, c, s, xp, yp, love_model) result(answer)
        integer(c_int32_t), intent(in) :: n, love_model
        integer(c_int64_t), intent(inout), contiguous :: c(:), s(:)
        integer(c_int64_t), intent(in) :: xp, yp
        answer = c_pole_tide(n, c, size(c, kind=c_size_t), s, size(s, kind=c_size_t), xp, yp, love_model)
    end function

    integer(c_int32_t) function ocean_tide(n, c, s, sheet, at, frame) result(answer)
        integer(c_int32_t), intent(in) :: n, frame
        integer(c_int64_t), intent(inout), contiguous :: c(:), s(:)
        integer(c_int8_t), intent(in), contiguous :: sheet(:)
        type(phases), intent(in) :: at
        answer = c_ocean_tide(n, c, size(c, kind=c_size_t), s, size(s, kind=c_size_t), sheet, size(sheet, kind=c_size_t), at, frame)
    end function

    ! how many bytes write_field makes of a field of degree n
    elemental integer(c_size_t) function file_bytes(n)
        integer(c_int32_t), intent(in) :: n
        file_bytes = 54 * (9 + (n + 1_c_size_t) * (n + 2_c_size_t) / 2)
    end function

    ! the gravity constant in m3/s2, the radius in millimetres; the file is text(:written), and what stands behind it stays
    integer(c_int32_t) function write_field(n, c, s, constant, radius, system, text, written) result(answer)
        integer(c_int32_t), intent(in) :: n, system
        integer(c_int64_t), intent(in), contiguous :: c(:), s(:)
        integer(c_int64_t), intent(in) :: constant, radius
        character(*, c_char), intent(inout) :: text
        integer(c_size_t), intent(inout) :: written
        answer = c_write_field(n, c, size(c, kind=c_size_t), s, size(s, kind=c_size_t), constant, radius, system, &
                               text, len(text, kind=c_size_t), written)
    end function

    ! what the header says; the data lines are tested as read_field tests them
    integer(c_int32_t) function file_head(text, degree, constant, radius, system) result(answer)
        character(*, c_char), intent(in) :: text
        integer(c_int32_t), intent(inout) :: degree, system
        integer(c_int64_t), intent(inout) :: constant, radius
        answer = c_file_head(text, len(text, kind=c_size_t), degree, constant, radius, system)
    end function

    ! lists of (degree + 1) * (degree + 2) / 2 entries are lent, the degree being the one that file_head gives
    integer(c_int32_t) function read_field(text, c, s, degree, constant, radius, system) result(answer)
        character(*, c_char), intent(in) :: text
        integer(c_int64_t), intent(inout), contiguous :: c(:), s(:)
        integer(c_int32_t), intent(inout) :: degree, system
        integer(c_int64_t), intent(inout) :: constant, radius
        answer = c_read_field(text, len(text, kind=c_size_t), c, size(c, kind=c_size_t), s, size(s, kind=c_size_t), &
                              degree, constant, radius, system)
    end function

    ! the 32 bits of a phase, a turn being 2**32; whole turns are left out
    elemental integer(c_int32_t) function phase(units)
        integer(c_int64_t), intent(in) :: units
        integer(c_int64_t), parameter :: turn = 2_c_int64_t**32
        integer(c_int64_t) :: rest
        rest = modulo(units, turn)
        phase = int(merge(rest - turn, rest, rest >= turn / 2), c_int32_t)
    end function

    function words(answer)
        integer(c_int32_t), intent(in) :: answer
        character(:), allocatable :: words
        select case (answer)
        case (0); words = "accepted"
        case (1); words = "the degree is outside 4..60, or a list has another length"
        case (2); words = "an entry of the field, or the C20 to move, is outside -2^60..2^60"
        case (3); words = "a number of a body's place, or its mass ratio, is not finite"
        case (4); words = "a body's distance is outside 10^8..10^12 m, or its mass ratio is not above 0 and at most 10^6"
        case (5); words = "a body's direction is not of length one: its square differs from 1 by more than 2^-40"
        case (6); words = "a step-one correction, before the permanent part, is not strictly between -2^52 and 2^52 counts"
        case (7); words = "the sheet has a section's count outside its range, or another length"
        case (8); words = "the sheet has a value or a row's total out of range, an S not zero at order 0, or places not ascending"
        case (9); words = "the sheet has a place of degree above the field's"
        case (10); words = "the Doodson number is above 999,999, or none can write the multipliers"
        case (11); words = "no printed line has the Doodson number"
        case (12); words = "the list of own lines has more than 64 records"
        case (13); words = "an own line has a multiplier outside -13..13, a first one not 0, 1 or 2, or an amplitude beyond 100,000"
        case (14); words = "the selection has a bit above 48, which stands for no line"
        case (15); words = "a pole offset is outside -1,000,000..1,000,000 micro-arcseconds"
        case (16); words = "two lines of the sheet have the same six multipliers"
        case (17); words = "the file is malformed, or an entry of its header is missing or repeated"
        case (18); words = "two lines of the file have the same place"
        case (19); words = "the file's degree or a value is out of range"
        case (20); words = "the file names no known tide system"
        case (21); words = "the output is too small"
        case (100); words = "a choice, a body's kind or an argument is none of its numbers"
        case default; words = "no answer of this unit"
        end select
    end function
end module
