program s
  integer :: a(6), b(6), i
  do concurrent (i = 1:6)
    a(i) = i*i
  end do
  b = 0
  do concurrent (i = 2:5)
    b(i) = a(i-1) + a(i+1) - 2*a(i)
  end do
  print *, b
end program s
