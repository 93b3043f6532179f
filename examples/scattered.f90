program s
  integer :: p(4), a(3), k, i
  p = 1
  p(2) = 2
  p(3) = 3
  do concurrent (i = 1:4)
    k = p(i)
    a(k) = 10*i
  end do
  print *, a
end program s
