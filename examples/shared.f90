program s
  integer :: v(5), t, i
  do concurrent (i = 1:5)
    v(i) = 10*i
  end do
  print *, v
  t = 0
  do concurrent (i = 1:5)
    t = t + v(i)
  end do
  print *, t
end program s
