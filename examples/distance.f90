program d
  integer :: a(6), i
  a = 1
  do concurrent (i = 3:6)
    a(i) = a(i-2) + 1
  end do
  print *, a
end program d
