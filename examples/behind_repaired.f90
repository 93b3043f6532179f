program b
  integer :: a(3), k, i
  do concurrent (i = 1:3)
    k = i + 1
    a(i) = k*k
  end do
  k = 4
  print *, a
  print *, k
end program b
