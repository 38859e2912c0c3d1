class A
  def f
    x = 1
    # @type var y: Integer
    x
  end
end
