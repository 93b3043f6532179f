program quotients
  integer :: divisor(5) = [4, 2, 1, 0, -2], q(5), i
  print *, 'divisors:', divisor
  do concurrent (i = 1:5)
    q(i) = 100/divisor(i)
  end do
  print *, q
end program quotients
