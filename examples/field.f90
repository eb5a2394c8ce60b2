! A gravity field file corrected at one epoch, 2004-05-17 0h, and written back: `field field.gfc OUT`. The phases, the Moon, the Sun
! and the pole's offsets, which are not that day's, are those of epoch.txt.
program field
    use surfgimlet
    implicit none
    integer(c_int32_t), parameter :: love = anelastic
    integer(c_int64_t), parameter :: given(6) = [integer(c_int64_t) :: &
        327043742, 329517021, 656638906, 3117674196_c_int64_t, 3812369497_c_int64_t, 3376471194_c_int64_t]
    type(body), parameter :: moon = body(rectangular, 0.012300034_c_double, -355452275.2669934_c_double, &
        164619588.90359762_c_double, 78939894.915495992_c_double, 399596591.64279854_c_double)
    type(body), parameter :: sun = body(rectangular, 332946.048_c_double, -142729805997.8396_c_double, &
        2252600386.0736647_c_double, 50151303252.337364_c_double, 151301106891.4837_c_double)
    integer(c_int64_t), parameter :: xp = -118250, yp = 156400
    integer(c_int64_t), allocatable :: c(:), s(:)
    integer(c_int64_t) :: constant, radius
    integer(c_int32_t) :: degree, system, named, bits(6)
    integer(c_size_t) :: entries, written
    character(:, c_char), allocatable :: text, out
    type(phases) :: at

    if (command_argument_count() /= 2) call give_up('a gravity field file and a name for the corrected one are wanted')
    if (version() /= header_version) call give_up('library and module are of two versions')
    call read_bytes()

    ! the whole file is tested here, and its degree tells which lists to lend
    call accepted('file_head', file_head(text, degree, constant, radius, system))
    entries = (degree + 1) * (degree + 2) / 2
    allocate (c(entries), s(entries))
    call accepted('read_field', read_field(text, c, s, degree, constant, radius, system))

    ! the solid tide wants a zero-tide C20, which stands at (4); a tide-free one is to have been made with this Love model's k20
    call accepted('move_c20', move_c20(c(4), system, zero_tide, love, c(4)))

    ! what the Moon and the Sun raise, with all lines, and what the pole's motion raises
    bits = phase(given)
    at = phases(bits(1), bits(2), bits(3), bits(4), bits(5), bits(6))
    call accepted('solid_tide', solid_tide(degree, c, s, moon, sun, love, set_hour(at), all_lines(), named))
    call accepted('pole_tide', pole_tide(degree, c, s, xp, yp, love))

    ! the field of this epoch, zero-tide now, with the constant and the radius that it came with
    allocate (character(file_bytes(degree), c_char) :: out)
    call accepted('write_field', write_field(degree, c, s, constant, radius, zero_tide, out, written))
    call write_bytes()

contains

    subroutine give_up(why)
        character(*), intent(in) :: why
        print '(a)', why
        stop 1
    end subroutine

    ! ends the program where a call was refused: no file is written then
    subroutine accepted(name, answer)
        character(*), intent(in) :: name
        integer(c_int32_t), intent(in) :: answer
        if (answer == 0) return
        print '(2a, i0, 2a)', name, ' refused with ', answer, ': ', words(answer)
        stop 1
    end subroutine

    subroutine read_bytes()
        character(4096) :: name
        integer :: unit, length, status
        call get_command_argument(1, name)
        open (newunit=unit, file=name, access='stream', form='unformatted', action='read', status='old', iostat=status)
        if (status /= 0) call give_up('the file cannot be read')
        inquire (unit=unit, size=length)
        allocate (character(length, c_char) :: text)
        read (unit) text
        close (unit)
    end subroutine

    subroutine write_bytes()
        character(4096) :: name
        integer :: unit, status
        call get_command_argument(2, name)
        open (newunit=unit, file=name, access='stream', form='unformatted', action='write', status='replace', iostat=status)
        if (status == 0) write (unit, iostat=status) out(:written)
        if (status /= 0) call give_up('the file cannot be written')
        close (unit)
    end subroutine
end program
