program r
  integer :: v(4), p(4), s, i
  v = 2
  s = 0
  do concurrent (i = 1:4)
    s = s + v(i)
    p(i) = s
  end do
  print *, p
end program r
