program d
  integer :: a(6), b(6), i
  a = 1
  b = 1
  do concurrent (i = 3:6)
    b(i) = a(i-2) + 1
  end do
  print *, b
end program d
