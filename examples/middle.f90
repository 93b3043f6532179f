! A loop over limits that are computed: it goes over what the array has, without its two ends.
program middle
  integer :: v(-3:3), w(-3:3) = 0, i, margin = 1
  do concurrent (i = lbound(v, 1):ubound(v, 1))
    v(i) = i*i
  end do
  do concurrent (i = lbound(v, 1) + margin:ubound(v, 1) - margin)
    w(i) = (v(i - 1) + v(i + 1))/2
  end do
  print *, size(v), 'elements'
  print *, v
  print *, w
end program middle
