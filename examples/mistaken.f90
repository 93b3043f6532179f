! A number stands where a truth is asked.
program m
  integer :: a(4), i
  logical :: odd(4)
  do i = 1, 4
    odd(i) = mod(i, 2)
    if (odd(i)) a(i) = i
  end do
  print *, a
end program m
