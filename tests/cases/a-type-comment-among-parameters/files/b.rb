class A
  def f(a,
  # @type var y: Integer
  b)
    a
  end
end
