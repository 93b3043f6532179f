program quotients
  integer :: divisor(5) = [4, 2, 1, 0, -2], q(5), i
  print *, 'divisors:', divisor
  do concurrent (i = 1:5)
    q(i) = merge(0, 100/merge(1, divisor(i), divisor(i) == 0), divisor(i) == 0)
  end do
  print *, q
end program quotients
