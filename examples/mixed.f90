program c
  integer :: a(4), b(4), k, i
  a = 1
  do concurrent (i = 2:4)
    k = i*i
    b(i) = a(i-1) + k
  end do
  b(1) = b(2) - b(4)*2
  print *, b
end program c
