program c
  integer :: a(4), i
  a = 0
  do concurrent (i = 2:4)
    a(i) = a(i-1) + 1
  end do
  print *, a
end program c
