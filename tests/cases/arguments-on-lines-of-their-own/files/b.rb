class A
  def f(a, b) a end
end
A.new.f(

  # the first
  1, # and

  # the second
  "b"

)
A.new()
A.new(
  # none
).f(1,'b')
