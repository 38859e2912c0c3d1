class A
  def f
    x =
    # @type var y: Integer
    1
  end
end
