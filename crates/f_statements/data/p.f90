program one
use iso_c_binding
implicit none
interface
subroutine put(c) bind(c)
import
integer(c_int), value :: c
end subroutine
end interface
call put(65_c_int)
end program
