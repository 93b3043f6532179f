program w
  integer :: a(3), i
  do concurrent (i = 1:3)
    a(i) = 999999999*i
  end do
  print *, a
end program w
