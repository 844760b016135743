program q
implicit none
use m
end program
