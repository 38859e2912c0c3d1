class A
  def f(

  a, # the first

  b
  # and the last
  )
    x =

    # a value
    a
    x
  end
end
