! A module with a procedure of nested constructs.
module sums
   implicit none
contains
   integer function total(values, limit)
      integer, intent(in) :: values(:), limit
      integer :: i
      total = 0
      do i = 1, size(values)
         if (values(i) > limit) then
            cycle
         else if (values(i) < 0) then
            exit
         end if
         select case (values(i))
         case (0)
            total = total + 1
         case default
            total = total + values(i)
         end select
      end do
   end function total
end module sums
