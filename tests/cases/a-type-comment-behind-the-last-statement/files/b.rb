class A
  def f
    1
    # @type var y: Integer
  end
end
