program s
  integer :: p(4), a(4), k, i
  p = 1
  p(2) = 2
  p(3) = 3
  p(4) = 4
  do concurrent (i = 1:4)
    k = p(i)
    a(k) = 10*i
  end do
  print *, a
end program s
